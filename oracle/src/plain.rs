//! Both engines of the library and the original on the same lists: the plain engine's answer, counts and rooms are the first engine's wherever it isn't refused, and
//! that is what the original makes; else the refusal is the documents', and nothing is written. Every room is filled with marks before a call and looked at after it.
//!
//!     plain SEED COUNT DAMAGED
#![allow(dead_code)]
mod angle;
mod qasm;
mod rest;
#[allow(unused_imports)]
use rest::*;
mod circuit;
mod cnot_min;

mod answer;
mod case;
mod damage;
mod gates;
mod make;
mod paper;

use case::{Answer, Case};
use gates::WIDTH;
use make::{Rng, flat, of_gates};

unsafe extern "C" {
    fn dilkovan_cnot_min(
        list: *const i32, list_len: usize, wires: usize, bits: usize, qubit_cap: usize, term_cap: usize,
        out: *mut i32, out_len: usize, terms: *mut u64, terms_len: usize, steps: *mut u32, steps_len: usize,
        counts: *mut [u64; 8],
    ) -> u64;
    fn dilkovan_plain(
        list: *const i32, list_len: usize, wires: usize, bits: usize, qubit_cap: usize, term_cap: usize,
        out: *mut i32, out_len: usize, terms: *mut u64, terms_len: usize, steps: *mut u32, steps_len: usize,
        whole: *mut i32, whole_len: usize, counts: *mut [u64; 8],
    ) -> u64;
}

/// No number that a call writes.
const MARK: i32 = -559038737;

/// The plain engine's gates, the clamped cap that it takes, and the numbers of its room for one resynthesis.
const GATES: usize = 256;
const CAP: u64 = 32;
const WHOLE: usize = WIDTH * 26400;

/// What a call leaves behind.
#[derive(PartialEq)]
struct Left {
    told: u64,
    counts: [u64; 8],
    out: Vec<i32>,
    terms: Vec<u64>,
    steps: Vec<u32>,
}

fn call(case: &Case, whole: Option<&mut [i32]>) -> Left {
    let mut left = Left { told: 0, counts: [MARK as u64; 8], out: vec![MARK; case.out as usize], terms: vec![MARK as u64; case.terms as usize], steps: vec![MARK as u32; case.steps as usize] };
    let (list, n) = (case.list.as_ptr(), case.list.len());
    let [wires, bits, qubit_cap, term_cap] = [case.wires, case.bits, case.qubit_cap, case.term_cap].map(|x| x as usize);
    let (out, terms, steps) = (&mut left.out, &mut left.terms, &mut left.steps);
    let (o, t, s) = ((out.as_mut_ptr(), out.len()), (terms.as_mut_ptr(), terms.len()), (steps.as_mut_ptr(), steps.len()));
    left.told = unsafe {
        match whole {
            None => dilkovan_cnot_min(list, n, wires, bits, qubit_cap, term_cap, o.0, o.1, t.0, t.1, s.0, s.1, &mut left.counts),
            Some(w) => dilkovan_plain(list, n, wires, bits, qubit_cap, term_cap, o.0, o.1, t.0, t.1, s.0, s.1, w.as_mut_ptr(), w.len(), &mut left.counts),
        }
    };
    left
}

/// The documents' refusal of the plain engine: 1, 2, 3, 15, 4, 5, then the gates. The room for one resynthesis has so many numbers.
fn refusal(case: &Case, whole: usize) -> Option<(u32, u32, u32)> {
    let first = paper::refusal(case);
    match first {
        Some((1..=3, ..)) => first,
        _ if case.list.len() / WIDTH > GATES || case.qubit_cap > CAP => Some((15, 0, 0)),
        Some((4, ..)) => first,
        _ if whole < WHOLE => Some((5, 0, 0)),
        _ => first,
    }
}

#[derive(Default)]
struct Tally {
    done: u64,
    gates: [u64; 2],
    blocks: [u64; 2],
    refused: [u64; 19],
}

/// The room for one resynthesis is lent again and again: it holds marks before each call.
struct Judge {
    room: Vec<i32>,
    tally: Tally,
}

impl Judge {
    fn new() -> Self {
        Judge { room: vec![MARK; WHOLE + 64], tally: Tally::default() }
    }

    /// One list, with a room of so many numbers. What is wrong, if anything is.
    fn judge(&mut self, case: &Case, whole: usize) -> Result<(), &'static str> {
        let first = call(case, None);
        let plain = call(case, Some(&mut self.room[..whole]));
        let marked = |part: &[i32]| part.iter().all(|&x| x == MARK);
        if let Some((number, place, field)) = refusal(case, whole) {
            self.tally.refused[number as usize] += 1;
            if plain.told != (field as u64) << 48 | (number as u64) << 32 | place as u64 {
                return Err("another answer than the documents' refusal");
            }
            let untouched = marked(&plain.out) && plain.terms.iter().all(|&x| x == MARK as u64) && plain.steps.iter().all(|&x| x == MARK as u32) && plain.counts == [MARK as u64; 8];
            return if untouched && marked(&self.room) { Ok(()) } else { Err("a refusal that writes") };
        }
        if plain.told != 0 {
            return Err("refused, and the documents don't");
        }
        if plain != first {
            return Err("not the first engine's answer, counts or rooms");
        }
        if !self.room[..WHOLE].iter().all(|&x| x == 0) || !marked(&self.room[WHOLE..]) {
            return Err("the room for one resynthesis isn't 0, or is written beyond");
        }
        self.room[..WHOLE].fill(MARK);
        let Answer::Done { counts, gates } = answer::answer(case) else { return Err("the first engine refuses it") };
        if plain.counts != counts.map(|x| x as u64) || plain.out[..gates.len()] != gates[..] {
            return Err("not what the original makes");
        }
        self.tally.done += 1;
        for k in 0..2 {
            self.tally.gates[k] += plain.counts[k];
            self.tally.blocks[k] += plain.counts[6 + k];
        }
        Ok(())
    }
}

/// Up to 256 gates at caps of up to 32.
fn small(r: &mut Rng) -> Case {
    let n = r.pick(&[1, 2, 3, 3, 4, 5, 6, 8, 12, 16, 24, 31, 32, 33, 40, 64]);
    let most = r.pick(&[8, 32, 64, 128, GATES]);
    let mut case = of_gates(r, n, 0, most);
    case.qubit_cap = if r.chance(40) { CAP } else { r.from(0, CAP as usize) as u64 };
    case.term_cap = r.pick(&[1, 2, 8, 31, 512, 512, 512, u64::MAX]);
    case
}

/// The same with faults, and with what only the plain engine refuses.
fn damaged(r: &mut Rng) -> (Case, usize) {
    let mut case = small(r);
    let mut whole = WHOLE + r.below(4);
    for _ in 0..r.pick(&[1, 1, 2, 3]) {
        match r.below(4) {
            0 => case.qubit_cap = r.pick(&[33, 34, 127, 128, 129, 1 << 32, u64::MAX]),
            1 => whole = r.pick(&[0, 1, WHOLE - WIDTH, WHOLE - 1, WHOLE]),
            2 => {
                let at = case.list.len() / WIDTH * WIDTH;
                let more = vec![vec![2, 0, 0, 0, 0, 3]; r.pick(&[GATES + 1, GATES]).saturating_sub(at / WIDTH)].concat();
                let (o, t, s) = (case.out, case.terms, case.steps);
                case.list.truncate(at);
                case.list.extend(&more);
                let g = (more.len() / WIDTH) as u64;
                (case.out, case.terms, case.steps) = (o + more.len() as u64, t + 9 * g, s + 2 * g);
            }
            _ => {
                let number = r.pick(&[1, 3, 4, 5, 6, 7, 8, 9, 18]);
                damage::fault(r, &mut case, number);
            }
        }
    }
    (case, whole)
}

/// 255 to 257 gates, caps about 1, 32 and 128, rooms that are exact, one number or one gate short, and longer; no gates; each with every other.
fn edges(judge: &mut Judge) -> Result<u64, String> {
    let mut r = Rng(4);
    let mut all = 0;
    for g in [0, 1, 255, 256, 257, 258] {
        for kind in 0..3 {
            // t by t, random CNOTs on 32 wires, and cz, which fold the most terms
            let gates: Vec<_> = (0..g).map(|i| {
                let (a, b) = (i % 32, (i % 32 + 1 + r.below(31)) % 32);
                [[2, 0, 0, 0, 0], [8, a as i32, b as i32, 0, 0], [9, a as i32, b as i32, 0, 0]][kind]
            }).collect();
            for cap in [0, 1, 2, 31, 32, 33, 127, 128, 129, u64::MAX] {
                for whole in [0, 1, WHOLE - WIDTH, WHOLE - 1, WHOLE, WHOLE + 1, WHOLE + 7] {
                    for (out, terms, steps) in [(0, 0, 0), (-1, 0, 0), (0, -1, 0), (0, 0, -1), (3, 5, 7)] {
                        let mut case = Case::new(32, 0, cap, 512, flat(&gates));
                        let short = |room: &mut u64, more: i64| *room = (*room as i64 + more).max(0) as u64;
                        short(&mut case.out, out);
                        short(&mut case.terms, terms);
                        short(&mut case.steps, steps);
                        judge.judge(&case, whole).map_err(|e| format!("an edge: {e}: room {whole}, {case}"))?;
                        all += 1;
                    }
                }
            }
        }
    }
    Ok(all)
}

fn run(seed: u64, count: u64, faults: u64) -> Result<(), String> {
    let mut judge = Judge::new();
    println!("edges: {} lists agree", edges(&mut judge)?);
    let mut r = Rng(seed);
    judge.tally = Tally::default();
    for i in 0..count {
        let case = small(&mut r);
        judge.judge(&case, WHOLE + (i % 3) as usize).map_err(|e| format!("list {i}: {e}: {case}"))?;
    }
    let t = &judge.tally;
    println!("lists: {} agree, {} gates in, {} out, {} blocks closed, {} replaced", t.done, t.gates[0], t.gates[1], t.blocks[0], t.blocks[1]);
    if t.done != count {
        return Err(format!("{} of {count} lists were refused", count - t.done));
    }
    judge.tally = Tally::default();
    for i in 0..faults {
        let (case, whole) = damaged(&mut r);
        judge.judge(&case, whole).map_err(|e| format!("damaged list {i}: {e}: room {whole}, {case}"))?;
    }
    let t = &judge.tally;
    let refused: Vec<String> = (1..19).filter(|&k| t.refused[k] > 0).map(|k| format!("{k}: {}", t.refused[k])).collect();
    println!("damaged: {} done as they are, refused {}", t.done, refused.join(", "));
    println!("seed {seed}: all agree");
    Ok(())
}

fn main() -> std::process::ExitCode {
    let words: Vec<u64> = std::env::args().skip(1).map(|w| w.parse().expect("a number")).collect();
    let [seed, count, faults] = words[..] else { panic!("SEED COUNT DAMAGED") };
    match run(seed, count, faults) {
        Ok(()) => std::process::ExitCode::SUCCESS,
        Err(told) => {
            eprintln!("{told}");
            std::process::ExitCode::FAILURE
        }
    }
}
