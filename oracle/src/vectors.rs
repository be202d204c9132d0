//! The stored cases and their answers, the same bytes for the same seed: fixed lists, refusals and rooms by the table, and random lists.
use crate::gates::{FIELDS, MOST_BITS, MOST_WIRES, WIDTH};
use crate::answer::answer;
use crate::case::Case;
use crate::make::{CAPS, Gate, Rng, blocks, flat, names, random, shape, wide, wider};
use crate::{damage, short};
use std::fs;
use std::io;

/// A gate of each code, on wires 0, 1 and 2 and bit 0.
fn sound(code: i32) -> Gate {
    match code {
        7 | 14..=16 => [code, 0, 0, 0, i32::MAX],
        8 | 9 | 17..=19 => [code, 0, 1, 0, 0],
        20..=23 => [code, 0, 1, 0, i32::MIN],
        24..=26 => [code, 0, 1, 2, 0],
        _ => [code, 0, 0, 0, 0],
    }
}

/// The lists of a text: a line each of wires, bits, caps and the gates' numbers; `#` begins a comment.
fn fixed(path: &str) -> io::Result<Vec<Case>> {
    let text = fs::read_to_string(path)?;
    let lines = text.lines().filter(|l| !l.starts_with('#'));
    Ok(lines
        .map(|line| {
            let n: Vec<i64> = line.split_ascii_whitespace().map(|w| w.parse().expect("a number")).collect();
            let gates: Vec<Gate> = n[4..].chunks(FIELDS).map(|g| std::array::from_fn(|k| g[k] as i32)).collect();
            Case::new(n[0] as u64, n[1] as u64, n[2] as u64, n[3] as u64, flat(&gates))
        })
        .collect())
}

/// Every code alone at default, least and huge caps, and every field of every code set to a number that may be bad.
fn codes(out: &mut Vec<Case>) {
    for code in 1..=27 {
        for (q, t) in [(128, 512), (0, 0), (u64::MAX, u64::MAX)] {
            out.push(Case::new(3, 1, q, t, flat(&[sound(code)])));
        }
        for field in 1..FIELDS {
            for x in [1, 2, 3, -1, i32::MIN, i32::MAX] {
                let mut gates = vec![sound(code), sound(code)];
                gates[1][field] = x;
                out.push(Case::new(3, 1, 128, 512, flat(&gates)));
            }
        }
    }
    for code in [0, 28, -1, i32::MIN, i32::MAX] {
        out.push(Case::new(3, 1, 128, 512, flat(&[sound(2), [code, 0, 0, 0, 0]])));
    }
}

/// The limit of each field that a code uses for a wire or a bit.
fn ranged(code: i32, wires: i32, bits: i32) -> Vec<(usize, i32)> {
    match code {
        8 | 9 | 17..=23 => vec![(1, wires), (2, wires)],
        24..=26 => vec![(1, wires), (2, wires), (3, wires)],
        27 => vec![(1, wires), (2, bits)],
        _ => vec![(1, wires)],
    }
}

/// Each code with each used field one below, at both ends of and one past its range, alone and two together, with fewer bits than wires and with
/// more; then with a field left over too, or a wire twice.
fn ranges(out: &mut Vec<Case>) {
    for (code, bits) in (1..=27).flat_map(|code| [(code, 2), (code, 5)]) {
        let used = ranged(code, 3, bits);
        let mut push = |change: &[(usize, i32)]| {
            let mut gate = sound(code);
            change.iter().for_each(|&(field, x)| gate[field] = x);
            out.push(Case::new(3, bits as u64, 128, 512, flat(&[sound(10), gate])));
        };
        for &(a, most) in &used {
            [-1, 0, most - 1, most].iter().for_each(|&x| push(&[(a, x)]));
        }
        for (i, &(a, most)) in used.iter().enumerate() {
            for &(b, more) in &used[i + 1..] {
                [(-1, -1), (-1, more), (most, -1), (most, more)].iter().for_each(|&(x, y)| push(&[(a, x), (b, y)]));
            }
        }
        let (last, most) = used[used.len() - 1];
        push(&[(3, 1), (4, 1), (last, most)]);
        if (24..=26).contains(&code) {
            push(&[(2, 0), (3, 3)]);
        }
    }
}

/// Each code with a line at both ends of its range and one below; then with a wire twice, or before a gate that has no code.
fn lines(out: &mut Vec<Case>) {
    let mut push = |gates: &[Gate], line: i32| {
        let mut list = flat(gates);
        list[WIDTH + FIELDS] = line;
        out.push(Case::new(3, 1, 128, 512, list));
    };
    for code in 1..=27 {
        [-1, i32::MIN, 0, i32::MAX].iter().for_each(|&line| push(&[sound(2), sound(code)], line));
    }
    push(&[sound(2), [8, 1, 1, 0, 0]], -1);
    push(&[sound(2), sound(8), [0; FIELDS]], -1);
    push(&[sound(2), [27, 0, 1, 0, 0]], -1);
}

/// Each room one short, exact and larger, for lists of 0 to 7 gates.
fn rooms(out: &mut Vec<Case>) {
    for g in [0, 1, 2, 7] {
        let exact = Case::new(1, 0, 128, 512, flat(&vec![sound(2); g]));
        for room in [exact.out.wrapping_sub(1), exact.out, exact.out + 1] {
            for terms in [exact.terms.wrapping_sub(1), exact.terms, exact.terms + 1, exact.terms + 2] {
                for steps in [exact.steps - 1, exact.steps, exact.steps + 1] {
                    // with no gates there is no room one short of nothing
                    if room <= 100 && terms <= 100 {
                        out.push(Case { out: room, terms, steps, ..exact.clone() });
                    }
                }
            }
        }
    }
}

/// Rooms that are looked at wrongly, exact and one number larger, of a list that is written shorter and of one that is refused.
fn looked(out: &mut Vec<Case>) {
    for list in [flat(&[sound(2); 2]), vec![0; WIDTH]] {
        let exact = Case::new(1, 0, 128, 512, list);
        for more in [0, 1] {
            for ask in 0..8 {
                out.push(Case { out: exact.out + more, terms: exact.terms + more, steps: exact.steps + more, ask, ..exact.clone() });
            }
        }
    }
}

/// The limits from both sides, and lists that have several faults, so that the first in the table's order is told.
fn limits(out: &mut Vec<Case>) {
    let (most, few) = (MOST_WIRES as u64, MOST_BITS as u64);
    for wires in [0, 1023, 1024, 1025, most - 1, most, most + 1, u64::MAX] {
        for bits in [0, few - 1, few, few + 1, u64::MAX] {
            out.push(Case::new(wires, bits, 128, 512, Vec::new()));
            for wire in [1023, MOST_WIRES as i32 - 1] {
                out.push(Case::new(wires, bits, 128, 512, flat(&[[2, wire, 0, 0, 0], [27, wire, 1023, 0, 0]])));
            }
        }
    }
    for extra in 1..WIDTH {
        out.push(Case::new(3, 1, 128, 512, [flat(&[sound(2)]), vec![0; extra]].concat()));
    }
    let faults: [fn(&mut Case); 7] =
        [|c| c.list.push(0), |c| c.wires = MOST_WIRES as u64 + 1, |c| c.out = 0, |c| c.terms = 0, |c| c.list[0] = 28, |c| c.list[1] = 5, |c| c.list[4] = 1];
    for first in 0..faults.len() {
        for last in first..faults.len() {
            let mut case = Case::new(3, 1, 128, 512, flat(&[sound(8), sound(24)]));
            faults[first..=last].iter().for_each(|fault| fault(&mut case));
            out.push(case);
        }
    }
    // 7 before 8 before 9 within a gate, and the earlier gate first
    for gate in [[8, 0, 0, 1, 0], [8, 3, 3, 0, 0], [8, 3, 3, 1, 0], [24, 1, 2, 1, 0], [27, 0, 1, 0, 0], [27, 0, 0, 0, 0]] {
        out.push(Case::new(3, 1, 128, 512, flat(&[sound(2), gate, [0; FIELDS]])));
    }
}

/// Lists that span 1 to 4, 127, 128 and 129 wires, at caps that cut them and caps that don't.
fn spans(r: &mut Rng, out: &mut Vec<Case>) {
    for n in [1, 2, 3, 4, 127, 128, 129] {
        let on = names(r, n, n + 1);
        let walk: Vec<Gate> = on.windows(2).map(|w| [8, w[0], w[1], 0, 0]).collect();
        let turns: Vec<Gate> = on.iter().map(|&q| [2, q, 0, 0, 0]).collect();
        let list = flat(&[turns.clone(), walk.clone(), walk.into_iter().rev().collect(), turns].concat());
        let small = CAPS.iter().flat_map(|&cap| [(cap, 512), (128, cap)]).collect();
        let caps = if n < 64 { small } else { vec![(127, 512), (128, 128), (129, 127), (u64::MAX, u64::MAX)] };
        caps.iter().for_each(|&(q, t)| out.push(Case::new(n as u64 + 1, 0, q, t, list.clone())));
    }
}

/// 8,192 gates, once the most that was accepted, and one gate more. The most that is now would be too much to store.
fn once_most(r: &mut Rng, out: &mut Vec<Case>) {
    let on = names(r, 40, 60);
    let mut gates: Vec<Gate> = Vec::new();
    while gates.len() < 8193 {
        let part = r.sample(&on, 6);
        gates.extend(shape(r, &part));
        gates.push([10, part[0], 0, 0, 0]);
    }
    [8192, 8193].iter().for_each(|&g| out.push(Case::new(60, 0, 128, 512, flat(&gates[..g]))));
}

fn all(lists: &str, seed: u64) -> io::Result<Vec<Case>> {
    let mut r = Rng(seed);
    let mut out = fixed(lists)?;
    codes(&mut out);
    ranges(&mut out);
    lines(&mut out);
    rooms(&mut out);
    looked(&mut out);
    limits(&mut out);
    spans(&mut r, &mut out);
    short::full(2, &mut |case| out.push(case));
    let makers: [(fn(&mut Rng) -> Case, usize); 4] = [(random, 600), (blocks, 200), (damage::damaged, 500), (wide, 8)];
    for (make, count) in makers {
        (0..count).for_each(|_| out.push(make(&mut r)));
    }
    once_most(&mut r, &mut out);
    (0..2).for_each(|_| out.push(wider(&mut r)));
    Ok(out)
}

pub fn write(lists: &str, seed: u64, stdin: &str, stdout: &str) -> io::Result<()> {
    let (mut cases, mut answers) = (Vec::new(), Vec::new());
    let out = all(lists, seed)?;
    for case in &out {
        case.encode(&mut cases);
        let told = answer(case);
        told.encode(case.right(&told), &mut answers);
    }
    println!("{} cases, {} bytes, and their answers, {} bytes", out.len(), cases.len(), answers.len());
    fs::write(stdin, cases)?;
    fs::write(stdout, answers)
}
