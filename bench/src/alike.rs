//! Times `dilkovan_alike` on lists against themselves, the slowest answer: every wire's sums are made. The least of seven runs, in milliseconds of processor.
//! And how deep the stack of both doors goes.
mod paint;
mod random;
use paint::deepest;
use random::Random;

unsafe extern "C" {
    /// Microseconds of processor that the program has had.
    fn clock() -> i64;
    fn dilkovan_alike(first: *const i32, first_length: usize, second: *const i32, second_length: usize, wires: usize) -> u64;
    fn dilkovan_pair(text: *const u8, n: usize, out: *mut u8, length: *mut usize) -> u64;
}

/// The text of a list, twice.
fn twice(list: &[i32], wires: usize) -> String {
    let rows: String = list.chunks(6).map(|g| format!("{} {} {} {} {}\n", g[0], g[1], g[2], g[3], g[4])).collect();
    format!("head 4\n{wires}\n0\n128\n512\ngates {}\n{rows}", list.len() / 6).repeat(2)
}

/// Any gates of the fragment.
fn mixed(r: &mut Random, wires: usize, gates: usize) -> Vec<i32> {
    (0..gates)
        .flat_map(|_| {
            let (code, a) = (1 + r.below(9) as i32, r.below(wires));
            let b = (a + 1 + r.below(wires - 1)) % wires;
            [code, a as i32, if code > 7 { b as i32 } else { 0 }, 0, if code == 7 { r.below(8) as i32 } else { 0 }, 0]
        })
        .collect()
}

/// Rotations by an odd turn on a parity of all wires.
fn full(wires: usize, gates: usize) -> Vec<i32> {
    (0..gates).flat_map(|k| if k + 1 < wires { [8, k as i32 + 1, 0, 0, 0, 0] } else { [2, 0, 0, 0, 0, 0] }).collect()
}

fn least(list: &[i32], wires: usize) -> f64 {
    let mut times: Vec<f64> = (0..7)
        .map(|_| {
            let start = unsafe { clock() };
            let told = unsafe { dilkovan_alike(list.as_ptr(), list.len(), list.as_ptr(), list.len(), wires) };
            assert_eq!(told, 0);
            (unsafe { clock() } - start) as f64 / 1e3
        })
        .collect();
    times.sort_by(f64::total_cmp);
    times[0]
}

fn main() {
    let most: usize = std::env::args().nth(1).expect("the most gates").parse().expect("a number");
    println!("| wires | gates | mixed | full parities |\n|---|---|---|---|");
    for (wires, gates) in [(8, 512), (32, 2048), (128, 1024), (128, 8192), (128, 65536)] {
        if gates <= most {
            println!("| {wires} | {gates} | {:.1} | {:.1} |", least(&mixed(&mut Random(5), wires, gates), wires), least(&full(wires, gates), wires));
        }
    }
    let lists = |gates| [mixed(&mut Random(5), 128, gates), full(128, gates)];
    let calls = lists(1024).map(|list| -> Box<dyn Fn() + Send> {
        Box::new(move || unsafe {
            dilkovan_alike(list.as_ptr(), list.len(), list.as_ptr(), list.len(), 128);
        })
    });
    let texts = lists(896).map(|list| -> Box<dyn Fn() + Send> {
        let both = twice(&list, 128);
        Box::new(move || {
            let (mut out, mut length) = (vec![0u8; 65536], 0);
            assert_eq!(unsafe { dilkovan_pair(both.as_ptr(), both.len(), out.as_mut_ptr(), &mut length) }, 0);
        })
    });
    println!("\nDeepest stack of a call: of two lists {} bytes, of their text {}.", deepest(calls.into()), deepest(texts.into()));
}
