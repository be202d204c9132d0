//! Times both engines on the same lists, as large as the plain one takes: the least of seven runs, in milliseconds of processor. And how deep the stack of the plain engine's doors goes.
mod paint;
mod random;
use paint::deepest;
use random::Random;

unsafe extern "C" {
    /// Microseconds of processor that the program has had.
    fn clock() -> i64;
    fn dilkovan_cnot_min(
        list: *const i32, list_len: usize, wires: usize, bits: usize, qubit_cap: usize, term_cap: usize,
        out: *mut i32, out_len: usize, terms: *mut u64, terms_len: usize, steps: *mut u32, steps_len: usize,
        counts: *mut [u64; 8],
    ) -> u64;
    fn dilkovan_plain(
        list: *const i32, list_len: usize, wires: usize, bits: usize, qubit_cap: usize, term_cap: usize,
        out: *mut i32, out_len: usize, terms: *mut u64, terms_len: usize, steps: *mut u32, steps_len: usize,
        whole: *mut i32, whole_len: usize, counts: *mut [u64; 8],
    ) -> u64;
    fn dilkovan_plain_list(text: *const u8, n: usize, out: *mut u8, length: *mut usize) -> u64;
}

const GATES: usize = 256;
const WHOLE: usize = 6 * 26400;

/// So many gates on 32 wires, each of one of these codes.
fn list(codes: &[i32], gates: usize) -> Vec<i32> {
    let mut r = Random(5);
    (0..gates)
        .flat_map(|_| {
            let (code, a) = (codes[r.below(codes.len())], r.below(32));
            let b = (a + 1 + r.below(31)) % 32;
            [code, a as i32, if code > 7 { b as i32 } else { 0 }, 0, if code == 7 { r.below(8) as i32 } else { 0 }, 0]
        })
        .collect()
}

/// A call of one engine, its rooms on the heap; answers the microseconds that it took.
fn call(list: &[i32], plain: bool) -> i64 {
    let g = list.len() / 6;
    let (mut out, mut terms, mut steps, mut whole, mut counts) = (vec![0; 6 * g], vec![0; 9 * g], vec![0; 2 * (g + 128)], vec![0; WHOLE], [0; 8]);
    let (l, n, o, t, s) = (list.as_ptr(), list.len(), out.as_mut_ptr(), terms.as_mut_ptr(), steps.as_mut_ptr());
    unsafe {
        let start = clock();
        let told = match plain {
            false => dilkovan_cnot_min(l, n, 32, 0, 32, 512, o, out.len(), t, terms.len(), s, steps.len(), &mut counts),
            true => dilkovan_plain(l, n, 32, 0, 32, 512, o, out.len(), t, terms.len(), s, steps.len(), whole.as_mut_ptr(), WHOLE, &mut counts),
        };
        assert_eq!(told, 0);
        clock() - start
    }
}

fn least(list: &[i32], plain: bool) -> f64 {
    (0..7).map(|_| call(list, plain)).min().unwrap() as f64 / 1e3
}

fn main() {
    let kinds: [(&str, &[i32]); 5] = [("any of codes 1 to 9", &[1, 2, 3, 4, 5, 6, 7, 8, 9]), ("cnot", &[8]), ("cnot and t", &[8, 2]), ("cz", &[9]), ("cnot, cz and rz", &[8, 9, 7])];
    println!("| gates on 32 wires | first engine | plain engine |\n|---|---|---|");
    for (name, codes) in kinds {
        let list = list(codes, GATES);
        println!("| {GATES} of {name} | {:.2} | {:.2} |", least(&list, false), least(&list, true));
    }
    let calls = kinds.map(|(_, codes)| -> Box<dyn Fn() + Send> {
        let list = list(codes, GATES);
        Box::new(move || {
            call(&list, true);
        })
    });
    let texts = kinds.map(|(_, codes)| -> Box<dyn Fn() + Send> {
        let rows: String = list(codes, GATES).chunks(6).map(|g| format!("{} {} {} {} {}\n", g[0], g[1], g[2], g[3], g[4])).collect();
        let text = format!("head 4\n32\n0\n32\n512\ngates {GATES}\n{rows}");
        Box::new(move || {
            let (mut out, mut length) = (vec![0u8; 65536], 0);
            assert_eq!(unsafe { dilkovan_plain_list(text.as_ptr(), text.len(), out.as_mut_ptr(), &mut length) }, 0);
        })
    });
    println!("\nDeepest stack of a call on these lists: dilkovan_plain {} bytes, dilkovan_plain_list {}.", deepest(calls.into()), deepest(texts.into()));
}
