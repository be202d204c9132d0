//! Lists made from a seed: random gates, and shapes that are often written shorter.
use crate::gates::{FIELDS, MOST_GATES, MOST_WIRES, WIDTH};
use crate::case::Case;
use std::collections::HashSet;

/// A small generator of numbers (splitmix64): the same seed makes the same lists everywhere.
pub struct Rng(pub u64);

impl Rng {
    pub fn next(&mut self) -> u64 {
        self.0 = self.0.wrapping_add(0x9e37_79b9_7f4a_7c15);
        let mut z = self.0;
        z = (z ^ (z >> 30)).wrapping_mul(0xbf58_476d_1ce4_e5b9);
        z = (z ^ (z >> 27)).wrapping_mul(0x94d0_49bb_1331_11eb);
        z ^ (z >> 31)
    }
    pub fn below(&mut self, n: usize) -> usize {
        ((self.next() as u128 * n as u128) >> 64) as usize
    }
    pub fn from(&mut self, low: usize, high: usize) -> usize {
        low + self.below(high - low + 1)
    }
    pub fn pick<T: Copy>(&mut self, from: &[T]) -> T {
        from[self.below(from.len())]
    }
    pub fn chance(&mut self, percent: usize) -> bool {
        self.below(100) < percent
    }
    /// k different wires of these, in random order.
    pub fn sample(&mut self, wires: &[i32], k: usize) -> Vec<i32> {
        let mut pool = wires.to_vec();
        for i in 0..k {
            let j = self.from(i, pool.len() - 1);
            pool.swap(i, j);
        }
        pool.truncate(k);
        pool
    }
}

const X: i32 = 1;
const RZ: i32 = 7;
const CNOT: i32 = 8;
const CZ: i32 = 9;
const MEASURE: i32 = 27;

pub type Gate = [i32; FIELDS];

const TURNS: [i32; 20] = [0, 1, 2, 3, 4, 5, 6, 7, 8, 9, -1, -2, -3, -4, -7, -8, -9, i32::MIN, i32::MIN + 1, i32::MAX];

pub const CAPS: [u64; 13] = [0, 1, 2, 3, 4, 5, 127, 128, 129, 512, 1 << 32, 1 << 63, u64::MAX];

pub fn turn(r: &mut Rng) -> i32 {
    if r.chance(10) { r.next() as i32 } else { r.pick(&TURNS) }
}

pub fn rotation(r: &mut Rng, q: i32) -> Gate {
    let code = r.from(2, 7) as i32;
    [code, q, 0, 0, if code == RZ { turn(r) } else { 0 }]
}

fn cnot(a: i32, b: i32) -> Gate {
    [CNOT, a, b, 0, 0]
}

fn pair(r: &mut Rng, wires: &[i32], cz: usize) -> Gate {
    let i = r.below(wires.len());
    let j = (i + 1 + r.below(wires.len() - 1)) % wires.len();
    [if r.chance(cz) { CZ } else { CNOT }, wires[i], wires[j], 0, 0]
}

/// An opaque gate of any code that has room on these wires.
fn opaque(r: &mut Rng, wires: &[i32], bits: usize) -> Gate {
    loop {
        let code = r.from(10, 27) as i32;
        let n = [(10..=16, 1), (17..=23, 2), (24..=26, 3), (27..=27, 1)].iter().find(|(codes, _)| codes.contains(&code)).unwrap().1;
        if n > wires.len() || (code == MEASURE && bits == 0) {
            continue;
        }
        let mut g = [code, 0, 0, 0, 0];
        r.sample(wires, n).iter().enumerate().for_each(|(k, &q)| g[1 + k] = q);
        if (14..=16).contains(&code) || (20..=23).contains(&code) {
            g[4] = turn(r);
        }
        if code == MEASURE {
            g[2] = r.below(bits) as i32;
        }
        return g;
    }
}

/// How often, in percent, a gate is opaque, an x, a rotation; the rest are CNOT and CZ, so often CZ.
#[derive(Clone, Copy)]
pub struct Mix {
    pub opaque: usize,
    pub x: usize,
    pub rotation: usize,
    pub cz: usize,
}

pub fn any_mix(r: &mut Rng) -> Mix {
    Mix { opaque: r.pick(&[0, 0, 3, 10, 30, 90]), x: r.pick(&[0, 10, 25]), rotation: r.pick(&[5, 30, 60, 90]), cz: r.pick(&[0, 25, 100]) }
}

pub fn any(r: &mut Rng, wires: &[i32], bits: usize, mix: Mix) -> Gate {
    if r.chance(mix.opaque) {
        return opaque(r, wires, bits);
    }
    let q = r.pick(wires);
    if r.chance(mix.x) {
        return [X, q, 0, 0, 0];
    }
    if wires.len() == 1 || r.chance(mix.rotation) {
        return rotation(r, q);
    }
    pair(r, wires, mix.cz)
}

// ---- shapes

/// A parity gathered by CNOTs, turned, and undone, twice over; an x in between.
fn gadgets(r: &mut Rng, wires: &[i32]) -> Vec<Gate> {
    let mut out = Vec::new();
    for _ in 0..r.from(1, 3) {
        let most = wires.len().min(6);
        let k = r.from(2, most);
        let part = r.sample(wires, k);
        let chain: Vec<Gate> = part.windows(2).map(|w| cnot(w[0], w[1])).collect();
        for _ in 0..2 {
            out.extend(&chain);
            out.push(rotation(r, part[k - 1]));
            out.extend(chain.iter().rev());
        }
        out.push([X, part[0], 0, 0, 0]);
    }
    out
}

/// CNOTs, turns, and the same CNOTs in reverse.
fn there_and_back(r: &mut Rng, wires: &[i32]) -> Vec<Gate> {
    let there: Vec<Gate> = (0..r.from(1, 80.min(3 * wires.len()))).map(|_| pair(r, wires, 0)).collect();
    let turns: Vec<Gate> = (0..r.from(0, 4))
        .map(|_| {
            let q = r.pick(wires);
            rotation(r, q)
        })
        .collect();
    [there.clone(), turns, there.into_iter().rev().collect()].concat()
}

/// A ring of CNOTs walked round and back, twice.
fn ring(r: &mut Rng, wires: &[i32]) -> Vec<Gate> {
    let round: Vec<Gate> = (0..wires.len()).map(|i| cnot(wires[i], wires[(i + 1) % wires.len()])).collect();
    let back: Vec<Gate> = round.iter().rev().copied().collect();
    let q = r.pick(wires);
    [round.clone(), back.clone(), round, back, vec![rotation(r, q)]].concat()
}

/// The same rotation or pair on every wire or neighbour: one block with many terms.
fn wall(r: &mut Rng, wires: &[i32]) -> Vec<Gate> {
    if r.chance(50) { wires.iter().map(|&q| rotation(r, q)).collect() } else { wires.windows(2).map(|w| [CZ, w[0], w[1], 0, 0]).collect() }
}

/// One of the shapes, on two wires or more.
pub fn shape(r: &mut Rng, wires: &[i32]) -> Vec<Gate> {
    match r.below(9) {
        0..=2 => gadgets(r, wires),
        3 | 4 => there_and_back(r, wires),
        5 => ring(r, wires),
        6 => wall(r, wires),
        _ => {
            let mix = Mix { opaque: 0, ..any_mix(r) };
            (0..r.from(1, 12 + wires.len())).map(|_| any(r, wires, 0, mix)).collect()
        }
    }
}

// ---- lists

/// The line of the gate at a place: different ones side by side, 0 and the largest among them.
fn line(i: usize) -> i32 {
    match i % 11 {
        4 => 0,
        9 => i32::MAX,
        _ => (i * 7919 % 100_003) as i32,
    }
}

/// The gates as a list's numbers, each with a line.
pub fn flat(gates: &[Gate]) -> Vec<i32> {
    let row = |(i, gate): (usize, &Gate)| -> [i32; WIDTH] { std::array::from_fn(|k| if k < FIELDS { gate[k] } else { line(i) }) };
    gates.iter().enumerate().flat_map(row).collect()
}

/// The first n wires under other names, so that local index and wire differ.
pub fn names(r: &mut Rng, n: usize, wires: usize) -> Vec<i32> {
    let all: Vec<i32> = (0..wires as i32).collect();
    r.sample(&all, n)
}

pub fn any_caps(r: &mut Rng) -> (u64, u64) {
    if r.chance(40) { (128, 512) } else { (r.pick(&CAPS), r.pick(&CAPS)) }
}

/// Rooms that are exact or a little larger.
fn with_rooms(r: &mut Rng, mut case: Case) -> Case {
    let more = [0, 0, 0, 1, 2, 3, 40];
    case.out += r.pick(&more);
    case.terms += r.pick(&more);
    case.steps += r.pick(&more);
    case
}

/// Gates of all codes on few wires.
pub fn random(r: &mut Rng) -> Case {
    let n = r.pick(&[1, 2, 2, 3, 3, 3, 4, 4, 5, 6, 8, 12, 20]);
    let wires = n + r.pick(&[0, 0, 1, 5]);
    let bits = r.pick(&[0, 1, 2, 1024]);
    let on = names(r, n, wires);
    let mix = any_mix(r);
    let most = r.pick(&[3, 8, 16, 40]);
    let gates: Vec<Gate> = (0..r.below(most + 1)).map(|_| any(r, &on, bits, mix)).collect();
    let (q, t) = any_caps(r);
    let case = Case::new(wires as u64, bits as u64, q, t, flat(&gates));
    with_rooms(r, case)
}

/// One to four shapes, some with an opaque gate between them.
pub fn blocks(r: &mut Rng) -> Case {
    let n = r.pick(&[2, 2, 3, 3, 3, 4, 4, 5, 5, 6, 7, 8, 10, 16]);
    let wires = n + r.pick(&[0, 0, 3]);
    let on = names(r, n, wires);
    let mut gates = shape(r, &on);
    for _ in 0..r.pick(&[0, 0, 0, 1, 3]) {
        if r.chance(50) {
            gates.push(opaque(r, &on, 2));
        }
        gates.extend(shape(r, &on));
    }
    let (q, t) = any_caps(r);
    let case = Case::new(wires as u64, 2, q, t, flat(&gates));
    with_rooms(r, case)
}

/// Lists that use exactly 64, 65, 127, 128, 129 or 1,024 wires.
pub fn wide(r: &mut Rng) -> Case {
    let n = r.pick(&[64, 65, 127, 127, 128, 128, 128, 129, 129, 1024]);
    let wires = if r.chance(50) { n } else { 1024.min(n + r.below(200)) };
    on_all(r, n, wires, 8192)
}

/// Lists that use exactly 1,025, 2,048, 4,095 or 4,096 wires.
pub fn wider(r: &mut Rng) -> Case {
    let n = r.pick(&[1025, 2048, MOST_WIRES - 1, MOST_WIRES, MOST_WIRES]);
    let wires = if r.chance(50) { n } else { MOST_WIRES.min(n + r.below(200)) };
    on_all(r, n, wires, 10800)
}

/// Shapes on n of the wires, and a gate on each that they leave out; so many gates at most.
fn on_all(r: &mut Rng, n: usize, wires: usize, most: usize) -> Case {
    let on = names(r, n, wires);
    let mut gates = shape(r, &on);
    for _ in 0..r.below(3) {
        if r.chance(20) {
            gates.push(opaque(r, &on, 1));
        }
        gates.extend(shape(r, &on));
    }
    // room for the wires that are not used yet
    gates.truncate(most - n);
    let used: HashSet<i32> = gates.iter().flat_map(|g| [g[1], g[2], g[3]]).collect();
    for &q in on.iter().filter(|q| !used.contains(q)) {
        gates.push(if r.chance(20) { [X, q, 0, 0, 0] } else { rotation(r, q) });
    }
    let caps = [127, 128, 129, u64::MAX];
    let (q, t) = if r.chance(80) { (r.pick(&caps), r.pick(&[512, 512, 127, 128, 129, 1, u64::MAX])) } else { any_caps(r) };
    let case = Case::new(wires as u64, 1, q, t, flat(&gates));
    with_rooms(r, case)
}

/// 1,000 to 8,192 gates on 1 to 1,024 wires.
pub fn long(r: &mut Rng) -> Case {
    let n = r.pick(&[1, 3, 8, 16, 64, 128, 200, 1024]);
    of_gates(r, n, 1000, 8192)
}

/// 8,193 to 10,800 gates, for which `batch_main` has rooms, on 1 to 4,096 wires.
pub fn longer(r: &mut Rng) -> Case {
    let n = r.pick(&[1, 3, 8, 16, 64, 128, 200, MOST_WIRES]);
    of_gates(r, n, 8193, 10800)
}

/// 8,193 gates to as many as a list may have, half of them at the largest caps.
pub fn longest(r: &mut Rng) -> Case {
    let n = r.pick(&[1, 3, 8, 16, 64, 128, 200, MOST_WIRES]);
    let case = of_gates(r, n, 8193, MOST_GATES);
    if r.chance(50) { Case { qubit_cap: u64::MAX, term_cap: u64::MAX, ..case } } else { case }
}

pub fn of_gates(r: &mut Rng, n: usize, least: usize, most: usize) -> Case {
    let on = names(r, n, n);
    let g = if r.chance(10) { most } else { r.from(least, most) };
    let mix = Mix { opaque: r.pick(&[0, 0, 1, 5]), ..any_mix(r) };
    let shapes = n > 1 && r.chance(50);
    let mut gates: Vec<Gate> = Vec::new();
    while gates.len() < g {
        if shapes {
            let most = n.min(r.pick(&[4, 16, 128]));
            let k = r.from(2, most);
            let part = r.sample(&on, k);
            gates.extend(shape(r, &part));
        } else {
            gates.push(any(r, &on, 2, mix));
        }
        if r.below(100) < mix.opaque {
            gates.push(opaque(r, &on, 2));
        }
    }
    gates.truncate(g);
    let (q, t) = if r.chance(70) { (128, 512) } else { any_caps(r) };
    let case = Case::new(n as u64, 2, q, t, flat(&gates));
    with_rooms(r, case)
}
