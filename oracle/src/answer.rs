//! The answer that a case must get: the original's gates, and the documents' refusals and counts.
use crate::case::{Answer, Case};
use crate::circuit::Circuit;
use crate::cnot_min::cnot_min_with;
use crate::gates::{FIELDS, WIDTH, gate, numbers};
use crate::paper::{Piece, cut, refusal};

/// What the original makes of a list, in the fields that it knows.
fn original(case: &Case, list: &[i32]) -> Vec<i32> {
    let mut circuit = Circuit::with_cbits(case.wires as usize, case.bits as usize);
    list.chunks(WIDTH).for_each(|g| circuit.apply(gate(g)));
    let new = cnot_min_with(&circuit, case.qubit_cap as usize, case.term_cap as usize);
    new.gates.iter().flat_map(numbers).collect()
}

/// How many blocks the scan closes, and how many of them are replaced. The original does not tell: the list is cut by a second reading of
/// document 01, the original runs on each block alone, and a block is replaced exactly when something else comes out. The cut is trusted
/// because the pieces side by side must be what the original makes of the whole.
///
/// The new list with its lines comes of the same pieces: a copied gate keeps its own, the gates of a replaced block take that of its first gate.
fn blocks(case: &Case, whole: &[i32]) -> ([u32; 2], Vec<i32>) {
    let pieces = cut(&case.list, case.qubit_cap, case.term_cap);
    let mut told = [0, 0];
    let mut joined = Vec::with_capacity(case.list.len());
    for piece in &pieces {
        match piece {
            Piece::Copied(i) => joined.extend_from_slice(&case.list[WIDTH * i..WIDTH * (i + 1)]),
            Piece::Block(run) => {
                let run = &case.list[WIDTH * run.start..WIDTH * run.end];
                // a list that is one block was run already
                let new = if pieces.len() == 1 { whole.to_vec() } else { original(case, run) };
                let replaced = new != fields(run);
                told[0] += 1;
                told[1] += replaced as u32;
                if replaced {
                    new.chunks(FIELDS).for_each(|gate| joined.extend(gate.iter().chain(&[run[FIELDS]])));
                } else {
                    joined.extend(run);
                }
            }
        }
    }
    assert!(fields(&joined) == whole, "the blocks side by side are not what the original makes of\n{case}");
    (told, joined)
}

/// A list without its lines.
fn fields(list: &[i32]) -> Vec<i32> {
    list.chunks(WIDTH).flat_map(|gate| &gate[..FIELDS]).copied().collect()
}

fn having(list: &[i32], codes: [i32; 2]) -> u32 {
    list.chunks(WIDTH).filter(|g| codes.contains(&g[0])).count() as u32
}

/// T as document 01 counted it: t and tdg alone.
pub fn named(list: &[i32]) -> u32 {
    having(list, [2, 3])
}

/// T as the machine spends it, document 02's A3: also every rz or p with an odd turn, as it is written.
fn spent(list: &[i32]) -> u32 {
    list.chunks(WIDTH).filter(|g| matches!(g[0], 2 | 3) || matches!(g[0], 7 | 14) && g[4] & 1 == 1).count() as u32
}

pub fn answer(case: &Case) -> Answer {
    if let Some((number, place, field)) = refusal(case) {
        return Answer::Refused { number, place, field };
    }
    let ([closed, replaced], gates) = blocks(case, &original(case, &case.list));
    let (old, new) = (&case.list, &gates);
    let two = [8, 9];
    let gates_of = |list: &[i32]| (list.len() / WIDTH) as u32;
    let counts =
        [gates_of(old), gates_of(new), having(old, two), having(new, two), spent(old), spent(new), closed, replaced];
    Answer::Done { counts, gates }
}
