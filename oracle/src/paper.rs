//! A second reading of document 01, of what the original does not tell: when a list is refused, with the field and the line that
//! document 02 adds (A2, A9), and where the scan cuts it. It is written from the documents' words alone and shares nothing with the original or with the port.
use crate::gates::{FIELDS, MOST_BITS, MOST_GATES, MOST_WIRES, WIDTH};
use crate::case::Case;
use std::collections::BTreeSet;
use std::ops::Range;

/// How many wires a code has, and whether it uses a classical bit and the turn.
fn uses(code: i32) -> (usize, bool, bool) {
    match code {
        7 | 14..=16 => (1, false, true),
        8 | 9 | 17..=19 => (2, false, false),
        20..=23 => (2, false, true),
        24..=26 => (3, false, false),
        27 => (1, true, false),
        _ => (1, false, false),
    }
}

/// The number and the field of a gate's refusal, if it has one.
fn fault(gate: &[i32], wires: u64, bits: u64) -> Option<(u32, u32)> {
    if !(1..=27).contains(&gate[0]) {
        return Some((6, 0));
    }
    let (n, bit, turn) = uses(gate[0]);
    let used = [true, true, n >= 2 || bit, n >= 3, turn];
    if (0..FIELDS).any(|k| !used[k] && gate[k] != 0) {
        return Some((7, 0));
    }
    // the fields from left to right: a wire by 8, the bit by 14
    for field in 1..=3 {
        let (number, limit) = if field == 2 && bit { (14, bits) } else { (8, wires) };
        let used = field <= n || (field == 2 && bit);
        if used && (gate[field] < 0 || gate[field] as u64 >= limit) {
            return Some((number, field as u32));
        }
    }
    let on = &gate[1..1 + n];
    let twice = (1..n).any(|k| on[..k].contains(&on[k]));
    if twice {
        return Some((9, 0));
    }
    (gate[FIELDS] < 0).then_some((18, 0))
}

/// The number, the place and the field of the documents' tables, or none for an accepted list.
pub fn refusal(case: &Case) -> Option<(u32, u32, u32)> {
    let n = case.list.len() as u64;
    let g = n / WIDTH as u64;
    let told =
        [n % WIDTH as u64 != 0, g > MOST_GATES as u64, case.wires > MOST_WIRES as u64 || case.bits > MOST_BITS as u64, case.out < n, case.terms / 3 < 3 * g || case.steps / 2 < g + 128];
    if let Some(k) = told.iter().position(|&t| t) {
        return Some((k as u32 + 1, 0, 0));
    }
    let mut gates = case.list.chunks(WIDTH).enumerate();
    gates.find_map(|(i, gate)| fault(gate, case.wires, case.bits).map(|(number, field)| (number, i as u32, field)))
}

/// A run of gates that one block holds, or a gate that is copied outside any block.
pub enum Piece {
    Block(Range<usize>),
    Copied(usize),
}

/// What decides where a block ends: the wires that joined, in order, the parity that each holds, and the parities in the table.
#[derive(Default)]
struct Block {
    wires: Vec<i32>,
    parity: Vec<u128>,
    table: BTreeSet<u128>,
}

impl Block {
    fn place(&self, q: i32) -> Option<usize> {
        self.wires.iter().position(|&w| w == q)
    }

    /// The parity that a wire holds or, before it joins, would hold.
    fn holds(&self, q: i32) -> u128 {
        self.place(q).map_or_else(|| 1 << self.wires.len(), |i| self.parity[i])
    }

    fn takes(&self, gate: &[i32], qubit_cap: u64, term_cap: u64) -> bool {
        let code = gate[0];
        if code > 9 {
            return false;
        }
        let fresh = gate[1..1 + uses(code).0].iter().filter(|&&q| self.place(q).is_none()).count();
        if (self.wires.len() + fresh) as u64 > qubit_cap {
            return false;
        }
        let rotation = (2..=7).contains(&code);
        !(rotation && self.table.len() as u64 >= term_cap && !self.table.contains(&self.holds(gate[1])))
    }

    fn join(&mut self, q: i32) -> usize {
        self.place(q).unwrap_or_else(|| {
            let parity = self.holds(q);
            self.wires.push(q);
            self.parity.push(parity);
            self.wires.len() - 1
        })
    }

    fn fold(&mut self, gate: &[i32]) {
        let c = self.join(gate[1]);
        let pc = self.parity[c];
        match gate[0] {
            1 => {}
            8 => {
                let t = self.join(gate[2]);
                self.parity[t] ^= pc;
            }
            9 => {
                let t = self.join(gate[2]);
                let pt = self.parity[t];
                self.table.extend([pc, pt, pc ^ pt]);
            }
            _ => {
                self.table.insert(pc);
            }
        }
    }
}

/// The pieces of an accepted list, in order.
pub fn cut(list: &[i32], qubit_cap: u64, term_cap: u64) -> Vec<Piece> {
    let (qubit_cap, term_cap) = (qubit_cap.clamp(1, 128), term_cap.max(1));
    let gates: Vec<&[i32]> = list.chunks(WIDTH).collect();
    let mut pieces = Vec::new();
    let mut start = 0;
    while start < gates.len() {
        let mut block = Block::default();
        let mut end = start;
        while end < gates.len() && block.takes(gates[end], qubit_cap, term_cap) {
            block.fold(gates[end]);
            end += 1;
        }
        if start < end {
            pieces.push(Piece::Block(start..end));
            start = end;
        } else {
            pieces.push(Piece::Copied(start));
            start += 1;
        }
    }
    pieces
}
