//! The original, built from its own text over stand-ins for what is missing of it, and what document 01 adds: refusals, rooms and counts.
//!
//!     oracle compare PROGRAM SEED COUNT KIND,KIND..     drives PROGRAM through a pipe and compares every answer (oracle/compare)
//!     oracle vectors LISTS SEED STDIN STDOUT            writes the stored cases and their answers (oracle/vectors)
//!     oracle answer                                     answers cases from standard input, as `batch_main` must
#![allow(dead_code)]
mod angle;
mod qasm;
mod rest;
#[allow(unused_imports)]
use rest::*;
// the two texts of the original; `build` puts them here, the second as it is and the first with the one function that it lacks
mod circuit;
mod cnot_min;

mod answer;
mod case;
mod compare;
mod damage;
mod gates;
mod make;
mod paper;
mod short;
mod vectors;

use std::io::{BufReader, Write};
use std::process::ExitCode;

/// Answers every case of the input.
fn serve() -> std::io::Result<()> {
    let mut input = BufReader::new(std::io::stdin().lock());
    let mut output = std::io::stdout().lock();
    while let Some(case) = case::Case::read(&mut input)? {
        let mut bytes = Vec::new();
        let told = answer::answer(&case);
        told.encode(case.right(&told), &mut bytes);
        output.write_all(&bytes)?;
    }
    Ok(())
}

fn main() -> ExitCode {
    let words: Vec<String> = std::env::args().skip(1).collect();
    let words: Vec<&str> = words.iter().map(|w| w.as_str()).collect();
    let number = |w: &str| w.parse::<u64>().unwrap_or_else(|_| panic!("{w} is no number"));
    let result = match words[..] {
        ["compare", program, seed, count, kinds] => {
            let kinds = kinds.split(',').map(str::to_string).collect();
            compare::compare(program, number(seed), number(count) as usize, kinds).map(|n| println!("seed {seed}: all {n} lists agree"))
        }
        ["vectors", lists, seed, stdin, stdout] => vectors::write(lists, number(seed), stdin, stdout).map_err(|e| e.to_string()),
        ["answer"] => serve().map_err(|e| e.to_string()),
        _ => Err("oracle compare | vectors | answer: oracle/compare and oracle/vectors say how".to_string()),
    };
    match result {
        Ok(()) => ExitCode::SUCCESS,
        Err(told) => {
            eprintln!("{told}");
            ExitCode::FAILURE
        }
    }
}
