//! Damaged lists: a good list with one to three faults, so that every number of the table is told, and which comes first when there are several.
use crate::case::Case;
use crate::gates::{FIELDS, MOST_BITS, MOST_GATES, MOST_WIRES, WIDTH};
use crate::make::{Rng, blocks, random};

const CODES: [i32; 6] = [0, 28, 29, -1, i32::MIN, i32::MAX];

/// A number that is never a wire or a bit.
fn outside(r: &mut Rng, limit: u64) -> i32 {
    r.pick(&[limit as i32, limit as i32 + 1, -1, -2, i32::MIN, i32::MAX])
}

/// How many wires the code has.
fn wires_of(code: i32) -> usize {
    match code {
        8 | 9 | 17..=23 => 2,
        24..=26 => 3,
        _ => 1,
    }
}

/// One fault of a kind, if the list has a place for it.
pub fn fault(r: &mut Rng, case: &mut Case, number: usize) {
    let g = case.list.len() / WIDTH;
    let at = if g == 0 { 0 } else { WIDTH * r.below(g) };
    let gated = g > 0;
    match number {
        1 => {
            let cut = r.from(1, WIDTH - 1);
            if r.chance(50) && case.list.len() > cut {
                case.list.truncate(case.list.len() - cut);
            } else {
                (0..cut).for_each(|_| case.list.push(0));
            }
        }
        3 => {
            let over = r.pick(&[1, 2, 1 << 32, u64::MAX]);
            let (room, most) = if r.chance(50) { (&mut case.wires, MOST_WIRES) } else { (&mut case.bits, MOST_BITS) };
            *room = if over < 3 { most as u64 + over } else { over };
        }
        4 => case.out = if r.chance(50) { case.list.len() as u64 } else { case.out }.saturating_sub(r.pick(&[1, 1, 1, 5, 100])),
        5 => {
            let short = r.pick(&[1, 1, 1, 2, 3, 50]);
            if r.chance(50) {
                case.terms = (9 * g as u64).saturating_sub(short);
            } else {
                case.steps = (2 * (g as u64 + 128)).saturating_sub(short);
            }
        }
        6 if gated => case.list[at] = r.pick(&CODES),
        7 if gated => case.list[at + r.from(1, 4)] = r.pick(&[1, -1, 2, i32::MIN, i32::MAX]),
        8 if gated => {
            let n = wires_of(case.list[at]);
            if case.list[at] == 27 && r.chance(50) {
                case.list[at + 2] = outside(r, case.bits);
            } else {
                case.list[at + r.from(1, n)] = outside(r, case.wires);
            }
        }
        9 if gated => {
            let n = wires_of(case.list[at]);
            if n > 1 {
                let (i, j) = if n == 2 { (1, 2) } else { r.pick(&[(1, 2), (1, 3), (2, 3)]) };
                case.list[at + j] = case.list[at + i];
            }
        }
        18 if gated => case.list[at + FIELDS] = r.pick(&[-1, -2, i32::MIN]),
        _ => {}
    }
}

pub fn damaged(r: &mut Rng) -> Case {
    let mut case = if r.chance(70) { random(r) } else { blocks(r) };
    for _ in 0..r.pick(&[1, 1, 1, 2, 3]) {
        // 2 is left out: `batch_main` has no room for such a list; tests/boundary hands one in. The number that chose it is drawn all the same, so that a
        // seed's lists stay
        r.below(1);
        let number = r.pick(&[1, 3, 4, 5, 6, 6, 7, 7, 8, 8, 9, 9, 18]);
        fault(r, &mut case, number);
    }
    case
}

/// As many gates as a list may have or some more, and perhaps a fault that is told before 2 or behind it. The rooms are those of a short list.
pub fn surplus(r: &mut Rng) -> Case {
    let mut case = random(r);
    case.list.resize(WIDTH * (MOST_GATES + r.pick(&[0, 1, 1, 2, 100])), 0);
    for _ in 0..r.below(3) {
        let number = r.pick(&[1, 3, 4, 6]);
        fault(r, &mut case, number);
    }
    case
}
