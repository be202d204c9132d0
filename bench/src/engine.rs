//! Times parts of the engine beside the original's own text: the same inputs, many different ones in turn, outputs compared.
#![allow(dead_code)]
mod angle;
mod qasm;
mod rest;
#[allow(unused_imports)]
use rest::*;
mod circuit;
mod cnot_min;
mod gates;
mod random;

use angle::Angle;
use circuit::Gate;
use cnot_min::doors;
use random::Random;
use std::hint::black_box;
use std::time::Instant;

unsafe extern "C" {
    fn timing_invert(a: *mut u64, a_len: usize, inv: *mut u64, inv_len: usize) -> bool;
    fn timing_column(set: *const u64, set_len: usize, lo: u64, hi: u64) -> u32;
    fn timing_walk(
        room: *mut u64, room_len: usize, nodes: *mut u64, nodes_len: usize, held: *mut u64, held_len: usize,
        names: *const u32, names_len: usize, out: *mut i32, out_len: usize, two: usize, all: usize,
    ) -> usize;
}

fn mask(n: usize) -> u128 {
    if n == 128 { u128::MAX } else { (1 << n) - 1 }
}

fn words(rows: &[u128]) -> Vec<u64> {
    rows.iter().flat_map(|&r| [r as u64, (r >> 64) as u64]).collect()
}

/// The smallest time of some rounds over all inputs, in nanoseconds an input.
fn best(rounds: usize, inputs: usize, mut round: impl FnMut()) -> f64 {
    let mut least = f64::MAX;
    for _ in 0..rounds {
        let began = Instant::now();
        round();
        least = least.min(began.elapsed().as_secs_f64());
    }
    least * 1e9 / inputs as f64
}

fn told(name: &str, n: usize, ours: f64, theirs: f64) {
    println!("| {name} | {n} | {ours:.0} | {theirs:.0} | {:.2} |", ours / theirs);
}

/// An invertible matrix: the identity with many random row additions.
fn invertible(random: &mut Random, n: usize) -> Vec<u128> {
    let mut rows: Vec<u128> = (0..n).map(|i| 1 << i).collect();
    for _ in 0..8 * n {
        let (a, b) = (random.below(n), random.below(n));
        if a != b {
            rows[b] ^= rows[a];
        }
    }
    rows
}

fn inversion(n: usize) {
    let mut random = Random(11 + n as u64);
    let inputs: Vec<Vec<u128>> = (0..200).map(|_| invertible(&mut random, n)).collect();
    let flat: Vec<Vec<u64>> = inputs.iter().map(|rows| words(rows)).collect();
    let (mut a, mut inv) = (Vec::new(), Vec::new());
    let (mut left, mut right) = (vec![0; 2 * n], vec![0; 2 * n]);
    for (rows, numbers) in inputs.iter().zip(&flat) {
        assert!(doors::invert(rows, n, &mut a, &mut inv));
        left.copy_from_slice(numbers);
        assert!(unsafe { timing_invert(left.as_mut_ptr(), 2 * n, right.as_mut_ptr(), 2 * n) });
        assert_eq!(words(&inv), right, "the inverses differ");
    }
    let theirs = best(9, inputs.len(), || {
        for rows in &inputs {
            black_box(doors::invert(black_box(rows), n, &mut a, &mut inv));
        }
    });
    let ours = best(9, inputs.len(), || {
        for numbers in &flat {
            left.copy_from_slice(black_box(numbers));
            black_box(unsafe { timing_invert(left.as_mut_ptr(), 2 * n, right.as_mut_ptr(), 2 * n) });
        }
    });
    told("invert_into", n, ours, theirs);
}

/// Different parities with turns other than 0; `few` columns each, or any.
fn terms(random: &mut Random, n: usize, count: usize, few: usize) -> Vec<(u128, Angle)> {
    let mut set = std::collections::BTreeSet::new();
    while set.len() < count {
        let mut p = ((random.next() as u128) << 64 | random.next() as u128) & mask(n);
        if few > 0 {
            p = (0..few).fold(0, |p, _| p | 1 << random.below(n));
        }
        if p != 0 {
            set.insert(p);
        }
    }
    set.into_iter().map(|p| (p, Angle(1 + random.below(7) as i32))).collect()
}

fn room(terms: &[(u128, Angle)]) -> Vec<u64> {
    terms.iter().flat_map(|(p, k)| [*p as u64, (*p >> 64) as u64, k.0 as u64]).collect()
}

fn column(n: usize, count: usize) {
    let mut random = Random(29 + n as u64);
    let inputs: Vec<_> = (0..200).map(|_| terms(&mut random, n, count, 0)).collect();
    let flat: Vec<_> = inputs.iter().map(|t| room(t)).collect();
    let all = mask(n);
    let (lo, hi) = (all as u64, (all >> 64) as u64);
    let ours_of = |set: &[u64]| unsafe { timing_column(set.as_ptr(), set.len(), lo, hi) };
    for (t, set) in inputs.iter().zip(&flat) {
        assert_eq!(doors::column(all, t), ours_of(set) as usize, "the columns differ");
    }
    let theirs = best(9, inputs.len(), || inputs.iter().for_each(|t| drop(black_box(doors::column(all, black_box(t))))));
    let ours = best(9, inputs.len(), || flat.iter().for_each(|t| drop(black_box(ours_of(black_box(t))))));
    told(&format!("best_column, {count} terms"), n, ours, theirs);
}

fn numbers(gates: &[Gate]) -> Vec<i32> {
    gates
        .iter()
        .flat_map(|g| match g {
            Gate::t(q) => [2, *q as i32, 0, 0, 0],
            Gate::tdg(q) => [3, *q as i32, 0, 0, 0],
            Gate::s(q) => [4, *q as i32, 0, 0, 0],
            Gate::sdg(q) => [5, *q as i32, 0, 0, 0],
            Gate::z(q) => [6, *q as i32, 0, 0, 0],
            Gate::cnot { control, target } => [8, *control as i32, *target as i32, 0, 0],
            _ => panic!("no walk emits this gate"),
        })
        .collect()
}

fn walk(name: &str, n: usize, inputs: Vec<Vec<(u128, Angle)>>) {
    let wires: Vec<u32> = (0..n as u32).collect();
    let flat: Vec<_> = inputs.iter().map(|t| room(t)).collect();
    let all = 80_000;
    let (mut theirs_room, mut state) = (doors::Room::default(), Vec::new());
    let (mut terms, mut nodes, mut held, mut out) = (vec![0u64; flat[0].len()], vec![0u64; 5 * 129], vec![0u64; 2 * n], vec![0i32; gates::WIDTH * all]);
    let units: Vec<u64> = words(&(0..n).map(|i| 1u128 << i).collect::<Vec<_>>());
    let mut ours_of = |set: &[u64], terms: &mut Vec<u64>, held: &mut Vec<u64>, out: &mut Vec<i32>| unsafe {
        terms.copy_from_slice(set);
        held.copy_from_slice(&units);
        timing_walk(terms.as_mut_ptr(), terms.len(), nodes.as_mut_ptr(), nodes.len(), held.as_mut_ptr(), held.len(),
            wires.as_ptr(), wires.len(), out.as_mut_ptr(), out.len(), all, all)
    };
    for (t, set) in inputs.iter().zip(&flat) {
        let made = numbers(doors::walk(&mut theirs_room, n, t, &mut state, &wires, all, all).expect("room enough"));
        let count = ours_of(set, &mut terms, &mut held, &mut out);
        let fields: Vec<i32> = out[..gates::WIDTH * count].chunks(gates::WIDTH).flat_map(|gate| &gate[..gates::FIELDS]).copied().collect();
        assert_eq!(made, fields, "the walks differ");
        assert_eq!(words(&state), held, "the rows differ");
    }
    let theirs = best(7, inputs.len(), || {
        inputs.iter().for_each(|t| drop(black_box(doors::walk(&mut theirs_room, n, black_box(t), &mut state, &wires, all, all).is_some())))
    });
    let ours = best(7, inputs.len(), || flat.iter().for_each(|t| drop(black_box(ours_of(black_box(t), &mut terms, &mut held, &mut out)))));
    told(name, n, ours, theirs);
}

fn main() {
    println!("| part | wires | ours, ns | the original, ns | ratio |\n|---|---|---|---|---|");
    [8, 32, 64, 128].into_iter().for_each(inversion);
    [8, 32, 64, 128].into_iter().for_each(|n| column(n, 64));
    for n in [8, 32, 64, 128] {
        let mut random = Random(43 + n as u64);
        walk("gray_synth, 64 terms", n, (0..60).map(|_| terms(&mut random, n, 64.min((1 << n.min(20)) - 1), 0)).collect());
    }
    for n in [32, 64, 128] {
        let mut random = Random(59 + n as u64);
        walk("gray_synth, 512 terms", n, (0..20).map(|_| terms(&mut random, n, 512, 0)).collect());
    }
    // few terms on many wires: soon nearly every set is of one term
    let mut random = Random(67);
    walk("gray_synth, 16 terms, nearly all sets of one", 128, (0..100).map(|_| terms(&mut random, 128, 16, 0)).collect());
    // one rotation on each wire: a set of one term splits off at every turn, and the rest never agrees
    let mut random = Random(71);
    walk("gray_synth, one term a wire", 128, (0..60).map(|_| (0..128).map(|i| (1u128 << i, Angle(1 + random.below(7) as i32))).collect()).collect());
}
