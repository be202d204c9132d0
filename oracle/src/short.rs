//! Every list up to a length over some gates, at some caps.
use crate::case::Case;
use crate::make::{Gate, flat};

struct Table {
    wires: u64,
    bits: u64,
    gates: Vec<Gate>,
    length: u32,
    caps: Vec<(u64, u64)>,
}

const DEFAULT: (u64, u64) = (128, 512);

/// The place of the table that has all codes of the fragment.
const FULL: usize = 1;

fn one(codes: &[i32], wires: &[i32]) -> Vec<Gate> {
    codes.iter().flat_map(|&c| wires.iter().map(move |&q| [c, q, 0, 0, 0])).collect()
}

fn two(code: i32, pairs: &[(i32, i32)]) -> Vec<Gate> {
    pairs.iter().map(|&(a, b)| [code, a, b, 0, 0]).collect()
}

fn tables() -> Vec<Table> {
    let both = [(0, 1), (1, 0)];
    let all = [(0, 1), (1, 0), (0, 2), (2, 0), (1, 2), (2, 1)];
    let round = [(0, 1), (1, 2), (2, 0)];
    let lone = [one(&[1, 2, 3, 4, 5, 6, 10], &[0]), vec![[7, 0, 0, 0, -1], [7, 0, 0, 0, i32::MIN]]].concat();
    // all codes of the fragment, with both ends of the turn's range, and four opaque gates
    let full = [
        one(&[1, 2, 3, 4, 5, 6], &[0, 1]),
        vec![[7, 0, 0, 0, 3], [7, 1, 0, 0, i32::MAX], [7, 0, 0, 0, i32::MIN]],
        two(8, &both),
        two(9, &both),
        vec![[10, 0, 0, 0, 0], [17, 0, 1, 0, 0], [27, 1, 0, 0, 0], [14, 1, 0, 0, 5]],
    ]
    .concat();
    let few = [one(&[1, 2], &[0, 1]), two(8, &both), two(9, &[(0, 1)]), one(&[10], &[0])].concat();
    let three = [one(&[1, 2, 5], &[0, 1, 2]), two(8, &all), two(9, &round), vec![[10, 1, 0, 0, 0], [24, 0, 1, 2, 0]]].concat();
    let knots = [one(&[2], &[0, 1]), one(&[1], &[2]), two(8, &round), two(8, &[(1, 0)])].concat();
    vec![
        Table { wires: 1, bits: 0, gates: lone, length: 6, caps: vec![DEFAULT, (1, 1)] },
        Table { wires: 2, bits: 1, gates: full, length: 4, caps: vec![DEFAULT, (1, 0), (2, 2), (u64::MAX, 3)] },
        Table { wires: 2, bits: 0, gates: few.clone(), length: 7, caps: vec![DEFAULT] },
        Table { wires: 2, bits: 0, gates: few, length: 6, caps: vec![(0, 512), (128, 1), (2, 2)] },
        Table { wires: 3, bits: 0, gates: three.clone(), length: 4, caps: vec![(2, 512), (1, 2), (128, 1), (3, 4)] },
        Table { wires: 3, bits: 0, gates: three, length: 5, caps: vec![DEFAULT] },
        Table { wires: 3, bits: 0, gates: knots, length: 7, caps: vec![DEFAULT] },
    ]
}

impl Table {
    fn each(&self, most: u32, f: &mut dyn FnMut(Case)) {
        let base = self.gates.len() as u64;
        for length in 0..=most.min(self.length) {
            for number in 0..base.pow(length) {
                // the list is the number's digits
                let digits = (0..length).map(|k| (number / base.pow(k) % base) as usize);
                let list: Vec<Gate> = digits.map(|d| self.gates[d]).collect();
                for &(q, t) in &self.caps {
                    f(Case::new(self.wires, self.bits, q, t, flat(&list)));
                }
            }
        }
    }
}

/// All lists of all tables.
pub fn each(f: &mut dyn FnMut(Case)) {
    tables().iter().for_each(|table| table.each(u32::MAX, f));
}

/// The lists of at most `most` gates over all codes of the fragment.
pub fn full(most: u32, f: &mut dyn FnMut(Case)) {
    tables()[FULL].each(most, f);
}
