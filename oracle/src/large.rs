//! The library behind `batch_main`'s questions: for lists whose rooms are more than a stack, lent from the heap here. Every room is filled with marks before a
//! call and looked at after it.
#![allow(dead_code)]
mod angle;
mod qasm;
mod rest;
#[allow(unused_imports)]
use rest::*;
mod circuit;

mod case;
mod gates;

use case::{Answer, Case};
use gates::WIDTH;
use std::io::{BufReader, Write};

unsafe extern "C" {
    fn dilkovan_cnot_min(
        list: *const i32, list_len: usize, wires: usize, bits: usize, qubit_cap: usize, term_cap: usize,
        out: *mut i32, out_len: usize, terms: *mut u64, terms_len: usize, steps: *mut u32, steps_len: usize,
        counts: *mut [u64; 8],
    ) -> u64;
}

/// No number that a call writes.
const MARK: i32 = -559038737;

/// The answer to a case, and the sum of 1, 2 and 4 for the rooms that are as promised: 0 in the part that the list needs, behind the new gates, or untouched by a refusal.
fn answer(case: &Case) -> (Answer, u32) {
    let g = case.list.len() / WIDTH;
    let (mut out, mut terms, mut steps) = (vec![MARK; case.out as usize], vec![MARK as u64; case.terms as usize], vec![MARK as u32; case.steps as usize]);
    let mut counts = [0; 8];
    let told = unsafe {
        dilkovan_cnot_min(
            case.list.as_ptr(), case.list.len(), case.wires as usize, case.bits as usize, case.qubit_cap as usize, case.term_cap as usize,
            out.as_mut_ptr(), out.len(), terms.as_mut_ptr(), terms.len(), steps.as_mut_ptr(), steps.len(), &mut counts,
        )
    };
    let done = told == 0;
    let made = if done { WIDTH * counts[1] as usize } else { 0 };
    let ends = if done { [WIDTH * g, 9 * g, 2 * (g + 128)] } else { [0; 3] };
    let right = [
        out.iter().enumerate().skip(made).all(|(i, &x)| x == if i < ends[0] { 0 } else { MARK }),
        terms.iter().enumerate().all(|(i, &x)| x == if i < ends[1] { 0 } else { MARK as u64 }),
        steps.iter().enumerate().all(|(i, &x)| x == if i < ends[2] { 0 } else { MARK as u32 }),
    ];
    let right = (0..3).filter(|&i| right[i]).map(|i| 1 << i).sum();
    if done {
        return (Answer::Done { counts: counts.map(|x| x as u32), gates: out[..made].to_vec() }, right);
    }
    (Answer::Refused { number: (told >> 32 & 0xffff) as u32, place: told as u32, field: (told >> 48) as u32 }, right)
}

fn main() -> std::io::Result<()> {
    let mut input = BufReader::new(std::io::stdin().lock());
    let mut output = std::io::stdout().lock();
    while let Some(case) = Case::read(&mut input)? {
        let mut bytes = Vec::new();
        let (told, right) = answer(&case);
        told.encode(right, &mut bytes);
        output.write_all(&bytes)?;
        // whoever asks may wait for it before the next case
        output.flush()?;
    }
    Ok(())
}
