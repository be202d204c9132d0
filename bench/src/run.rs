//! Times the whole pass beside the original's own text: the same lists, several different ones in turn, outputs compared.
#![allow(dead_code)]
mod angle;
mod qasm;
mod rest;
#[allow(unused_imports)]
use rest::*;
mod circuit;
mod cnot_min;
mod gates;
mod paint;
mod random;

use circuit::Circuit;
use gates::{FIELDS, WIDTH};
use random::Random;
use paint::deepest;
use std::hint::black_box;
use std::time::Instant;

unsafe extern "C" {
    fn dilkovan_cnot_min(
        list: *const i32, list_len: usize, wires: usize, bits: usize, qubit_cap: usize, term_cap: usize,
        out: *mut i32, out_len: usize, terms: *mut u64, terms_len: usize, steps: *mut u32, steps_len: usize,
        counts: *mut [u64; 8],
    ) -> u64;
}

/// The port's rooms, exactly as long as a list needs.
struct Rooms {
    out: Vec<i32>,
    terms: Vec<u64>,
    steps: Vec<u32>,
    counts: [u64; 8],
}

impl Rooms {
    fn of(list: &[i32]) -> Rooms {
        let g = list.len() / WIDTH;
        Rooms { out: vec![0; WIDTH * g], terms: vec![0; 9 * g], steps: vec![0; 2 * (g + 128)], counts: [0; 8] }
    }
    fn run(&mut self, list: &[i32], wires: usize, qubits: usize, terms: usize) -> u64 {
        unsafe {
            dilkovan_cnot_min(
                list.as_ptr(), list.len(), wires, 0, qubits, terms,
                self.out.as_mut_ptr(), self.out.len(), self.terms.as_mut_ptr(), self.terms.len(),
                self.steps.as_mut_ptr(), self.steps.len(), &mut self.counts,
            )
        }
    }
}

type List = Vec<i32>;

/// A gate with its line, which counts from 1.
fn push(list: &mut List, gate: [i32; FIELDS]) {
    list.extend(gate);
    list.push((list.len() / WIDTH + 1) as i32);
}

/// A list without its lines.
fn fields(list: &[i32]) -> List {
    list.chunks(WIDTH).flat_map(|gate| &gate[..FIELDS]).copied().collect()
}

fn one(list: &mut List, code: i32, q: usize) {
    push(list, [code, q as i32, 0, 0, 0]);
}

fn two(list: &mut List, code: i32, p: usize, q: usize) {
    push(list, [code, p as i32, q as i32, 0, 0]);
}

/// Random gates of the fragment: `rotations` percent of them rotations, the others CNOT, CZ and x; and an h now and then.
fn dense(seed: u64, gates: usize, wires: usize, rotations: usize) -> List {
    let mut r = Random(seed);
    let mut list = List::new();
    for _ in 0..gates {
        let (p, q) = (r.below(wires), r.below(wires));
        if r.below(400) == 0 {
            one(&mut list, 10, p);
        } else if r.below(100) < rotations {
            one(&mut list, 2 + r.below(5) as i32, p);
        } else if p == q {
            one(&mut list, 1, p);
        } else {
            two(&mut list, if r.below(8) == 0 { 9 } else { 8 }, p, q);
        }
    }
    list
}

/// A t on every wire, an h between the rounds.
fn t_wall(gates: usize, wires: usize) -> List {
    let mut list = List::new();
    while list.len() < WIDTH * gates {
        (0..wires).for_each(|q| one(&mut list, 2, q));
        one(&mut list, 10, 0);
    }
    list.truncate(WIDTH * gates);
    list
}

/// A cz on every pair of neighbours, an h between the rounds.
fn cz_wall(gates: usize, wires: usize) -> List {
    let mut list = List::new();
    while list.len() < WIDTH * gates {
        (0..wires - 1).for_each(|q| two(&mut list, 9, q, q + 1));
        one(&mut list, 10, 0);
    }
    list.truncate(WIDTH * gates);
    list
}

/// Random cz gates in one block.
fn cz_only(seed: u64, gates: usize, wires: usize) -> List {
    let mut r = Random(seed);
    let mut list = List::new();
    while list.len() < WIDTH * gates {
        let (p, q) = (r.below(wires), r.below(wires));
        if p != q {
            two(&mut list, 9, p, q);
        }
    }
    list
}

/// The phase part of a Fourier transform: each controlled turn as CNOTs and rotations.
fn fourier(gates: usize, wires: usize) -> List {
    let mut list = List::new();
    'full: loop {
        for i in 0..wires {
            for j in i + 1..wires {
                let k = 1 + ((j - i) % 3) as i32;
                push(&mut list, [7, i as i32, 0, 0, k]);
                push(&mut list, [7, j as i32, 0, 0, k]);
                two(&mut list, 8, i, j);
                push(&mut list, [7, j as i32, 0, 0, -k]);
                two(&mut list, 8, i, j);
                if list.len() >= WIDTH * gates {
                    break 'full;
                }
            }
            one(&mut list, 10, i);
        }
    }
    list.truncate(WIDTH * gates);
    list
}

/// A ripple adder of `bits` bits: Toffolis as h, CNOT and t, CNOTs between.
fn adder(bits: usize) -> List {
    let mut list = List::new();
    let toffoli = |list: &mut List, a: usize, b: usize, c: usize| {
        one(list, 10, c);
        for (code, p, q) in [(8, b, c), (3, c, c), (8, a, c), (2, c, c), (8, b, c), (3, c, c), (8, a, c), (2, b, b), (2, c, c), (10, c, c), (8, a, b), (2, a, a), (3, b, b), (8, a, b)] {
            if code == 8 { two(list, 8, p, q) } else { one(list, code, p) }
        }
    };
    for i in 0..bits {
        let (a, b, c) = (3 * i, 3 * i + 1, 3 * i + 2);
        two(&mut list, 8, a, b);
        two(&mut list, 8, a, c);
        toffoli(&mut list, c, b, a);
    }
    list.truncate(WIDTH * 8192);
    list
}

/// Terms as chemistry has them: a ladder of CNOTs around one rz, and back, on wires that some h turn before and after.
fn chemistry(seed: u64, gates: usize, wires: usize) -> List {
    let mut r = Random(seed);
    let mut list = List::new();
    while list.len() < WIDTH * gates {
        let first = r.below(wires - 1);
        let last = first + 1 + r.below(wires - first - 1);
        let turned: Vec<usize> = (first..=last).filter(|_| r.below(4) == 0).collect();
        turned.iter().for_each(|&q| one(&mut list, 10, q));
        (first..last).for_each(|q| two(&mut list, 8, q, q + 1));
        push(&mut list, [7, last as i32, 0, 0, 1 + r.below(7) as i32]);
        (first..last).rev().for_each(|q| two(&mut list, 8, q, q + 1));
        turned.iter().for_each(|&q| one(&mut list, 10, q));
    }
    list.truncate(WIDTH * gates);
    list
}

/// The lengths whose times tell how a list's time grows, up to the most gates.
const LENGTHS: [usize; 4] = [8192, 16384, 32768, gates::MOST_GATES];

fn median(mut times: Vec<f64>) -> f64 {
    times.sort_by(|a, b| a.total_cmp(b));
    times[times.len() / 2]
}

/// Times both on the lists in turn, and holds the port's output to the original's.
fn compare(name: &str, lists: &[List], wires: usize, qubits: usize, terms: usize) {
    let circuits: Vec<Circuit> = lists
        .iter()
        .map(|list| {
            let mut c = Circuit::with_cbits(wires, 0);
            list.chunks(WIDTH).for_each(|g| c.apply(gates::gate(g)));
            c
        })
        .collect();
    let mut rooms: Vec<Rooms> = lists.iter().map(|l| Rooms::of(l)).collect();
    for ((list, circuit), room) in lists.iter().zip(&circuits).zip(&mut rooms) {
        assert_eq!(room.run(list, wires, qubits, terms), 0, "{name}: refused");
        let theirs: List = cnot_min::cnot_min_with(circuit, qubits, terms).gates.iter().flat_map(gates::numbers).collect();
        assert_eq!(fields(&room.out[..WIDTH * room.counts[1] as usize]), theirs, "{name}: the outputs differ");
    }
    let (mut ours, mut theirs, mut ratios) = (Vec::new(), Vec::new(), Vec::new());
    let began = Instant::now();
    let mut rounds = 0;
    while rounds < 5 || (began.elapsed().as_secs_f64() < 1.0 && rounds < 200) {
        for ((list, circuit), room) in lists.iter().zip(&circuits).zip(&mut rooms) {
            let t = Instant::now();
            black_box(room.run(black_box(list), wires, qubits, terms));
            let port = t.elapsed().as_secs_f64() * 1e6;
            let t = Instant::now();
            black_box(cnot_min::cnot_min_with(black_box(circuit), qubits, terms));
            let original = t.elapsed().as_secs_f64() * 1e6;
            ours.push(port);
            theirs.push(original);
            ratios.push(port / original);
        }
        rounds += 1;
    }
    let (ours, theirs, ratio) = (median(ours), median(theirs), median(ratios));
    let g = lists[0].len() / WIDTH;
    println!("| {name} | {g} | {ours:.1} | {theirs:.1} | {ratio:.3} | {:.1} |", ours * 1000.0 / g as f64);
}

/// A call of the port, for its stack.
fn call(list: List, wires: usize) -> Box<dyn Fn() + Send> {
    Box::new(move || {
        Rooms::of(&list).run(&list, wires, 128, 512);
    })
}

/// One shape of lists, by seed and gates.
struct Shape {
    name: String,
    wires: usize,
    /// Whether the term cap is so large that no list reaches it; else it is 512.
    open: bool,
    make: Box<dyn Fn(u64, usize) -> List>,
}

fn shape(name: &str, wires: usize, make: impl Fn(u64, usize) -> List + 'static) -> Shape {
    Shape { name: format!("{name}, {wires} wires"), wires, open: false, make: Box::new(make) }
}

/// Without the h that end a block.
fn unbroken(seed: u64, gates: usize, wires: usize, rotations: usize) -> List {
    dense(seed, gates + gates / 100 + 100, wires, rotations).chunks(WIDTH).filter(|gate| gate[0] != 10).flatten().take(WIDTH * gates).copied().collect()
}

fn shapes() -> Vec<Shape> {
    let mut all = Vec::new();
    for wires in [3, 8, 16, 32, 128] {
        for rotations in [5, 30, 60] {
            all.push(shape(&format!("dense, {rotations} % rotations"), wires, move |s, g| dense(s, g, wires, rotations)));
        }
    }
    for wires in [1024, 4096] {
        all.push(shape("dense, 60 % rotations", wires, move |s, g| dense(s, g, wires, 60)));
    }
    all.push(shape("t wall", 128, |_, g| t_wall(g, 128)));
    all.push(shape("cz wall", 128, |_, g| cz_wall(g, 128)));
    all.push(shape("cz only, one block", 128, |s, g| cz_only(s, g, 128)));
    all.push(shape("Fourier", 90, |_, g| fourier(g, 90)));
    for wires in [12, 24, 60] {
        all.push(shape("gadgets", wires, move |s, g| chemistry(s, g, wires)));
    }
    for wires in [16, 128] {
        all.push(Shape { open: true, ..shape("one block, 30 % rotations, the largest term cap", wires, move |s, g| unbroken(s, g, wires, 30)) });
    }
    all
}

fn main() {
    println!("| list | gates | port | original | ratio | port, ns a gate |");
    println!("|---|---|---|---|---|---|");
    for shape in shapes() {
        for gates in LENGTHS {
            // four lists where they are quick
            let lists: Vec<List> = (1..if gates > 8192 { 2 } else { 5 }).map(|s| (shape.make)(s * 7919, gates)).collect();
            compare(&shape.name, &lists, shape.wires, 128, if shape.open { 3 * gates } else { 512 });
        }
    }
    let several = |f: &dyn Fn(u64) -> List| -> Vec<List> { (1..5).map(|s| f(s * 7919)).collect() };
    for gates in [512, 1024, 2048, 4096] {
        compare("dense, 30 % rotations, 16 wires", &several(&|s| dense(s, gates, 16, 30)), 16, 128, 512);
    }
    compare("adder, 200 bits", &[adder(200)], 600, 128, 512);
    compare("chemistry, 32 wires", &several(&|s| chemistry(s, 40000, 32)), 32, 128, 512);
    let calls = vec![
        call(dense(1, 65536, 128, 30), 128), call(t_wall(65536, 128), 128), call(cz_only(1, 65536, 128), 128), call(dense(1, 8192, 1024, 60), 1024), call(dense(1, 65536, 4096, 60), 4096),
        call(fourier(65536, 90), 90), call(chemistry(1, 40000, 32), 32),
    ];
    println!();
    println!("Deepest stack of a call on the lists above: {} bytes.", deepest(calls));
}
