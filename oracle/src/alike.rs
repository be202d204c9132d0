//! Judges `dilkovan_alike`: pairs of lists on few wires against every setting of the wires, on many against the sums of turns of a table of terms, damaged
//! lists against the refusals in their order, lists of one block against what the pass makes of them, and the list program's texts, stretch by stretch.
//! Usage: alike SEED SMALL LARGE REFUSED BLOCKS DESK, how many pairs of each kind.
use std::collections::HashMap;

#[path = "../../bench/src/random.rs"]
mod random;
use random::Random;

const WIDTH: usize = 6;
const MAX_GATES: usize = 65536;
const MAX_WIRES: usize = 4096;
const TEXT_GATES: usize = 896;
const TEXT_BYTES: usize = 32768;
const LIST_BYTES: usize = 12 * WIDTH * TEXT_GATES + 256;
type Gate = [i32; WIDTH];

unsafe extern "C" {
    fn dilkovan_alike(first: *const i32, first_length: usize, second: *const i32, second_length: usize, wires: usize) -> u64;
    fn dilkovan_list(text: *const u8, n: usize, out: *mut u8, length: *mut usize) -> u64;
    fn dilkovan_pair(text: *const u8, n: usize, out: *mut u8, length: *mut usize) -> u64;
    fn dilkovan_cnot_min(list: *const i32, n: usize, wires: usize, bits: usize, qubits: usize, cap: usize, out: *mut i32, out_n: usize, terms: *mut u64, terms_n: usize,
                         steps: *mut u32, steps_n: usize, counts: *mut u64) -> u64;
}

fn asked(us: &[i32], vs: &[i32], wires: usize) -> u64 {
    unsafe { dilkovan_alike(us.as_ptr(), us.len(), vs.as_ptr(), vs.len(), wires) }
}

fn numbers(gates: &[Gate]) -> Vec<i32> {
    gates.concat()
}

/// The turn of a rotation.
fn turn(g: &Gate) -> u8 {
    match g[0] {
        2 => 1,
        3 => 7,
        4 => 2,
        5 => 6,
        6 => 4,
        7 => g[4].rem_euclid(8) as u8,
        _ => unreachable!(),
    }
}

/// Where a list takes a setting, and the phase that it adds.
fn run(gates: &[Gate], mut s: u32) -> (u32, u8) {
    let mut phase = 0u8;
    for g in gates {
        let (a, b) = (g[1], g[2]);
        match g[0] {
            1 => s ^= 1 << a,
            8 => s ^= (s >> a & 1) << b,
            9 => phase += 4 * (s >> a & s >> b & 1) as u8,
            _ => phase += turn(g) * (s >> a & 1) as u8,
        }
        phase %= 8;
    }
    (s, phase)
}

/// The answer by every setting: 0 same, 1 map, 2 flips, 3 phase.
fn by_settings(us: &[Gate], vs: &[Gate], wires: usize) -> u64 {
    let (u0, p0) = run(us, 0);
    let (v0, q0) = run(vs, 0);
    let all: Vec<_> = (0..1u32 << wires).map(|s| (run(us, s), run(vs, s))).collect();
    if all.iter().any(|((u, _), (v, _))| u ^ u0 != v ^ v0) {
        1
    } else if u0 != v0 {
        2
    } else if all.iter().any(|((_, p), (_, q))| (p + 8 - p0) % 8 != (q + 8 - q0) % 8) {
        3
    } else {
        0
    }
}

/// A table of terms: the rows, the constants, and the turns by parity.
fn table(gates: &[Gate], wires: usize, back: bool, terms: &mut HashMap<u128, u8>) -> (Vec<u128>, u128) {
    let mut rows: Vec<u128> = (0..wires).map(|q| 1 << q).collect();
    let mut flips = 0u128;
    let mut note = |p: u128, k: u8, flipped: bool| {
        let signed = if flipped != back { (8 - k % 8) % 8 } else { k % 8 };
        let t = terms.entry(p).or_default();
        *t = (*t + signed) % 8;
    };
    for g in gates {
        let (a, b) = (g[1] as usize, g[2] as usize);
        match g[0] {
            1 => flips ^= 1 << a,
            8 => {
                rows[b] ^= rows[a];
                flips ^= (flips >> a & 1) << b;
            }
            9 => {
                note(rows[a], 2, flips >> a & 1 == 1);
                note(rows[b], 2, flips >> b & 1 == 1);
                note(rows[a] ^ rows[b], 6, (flips >> a ^ flips >> b) & 1 == 1);
            }
            _ => note(rows[a], turn(g), flips >> a & 1 == 1),
        }
    }
    (rows, flips)
}

/// The answer by coefficients: the turns on one wire modulo 8, on two modulo 4, on three modulo 2.
fn by_coefficients(us: &[Gate], vs: &[Gate], wires: usize) -> u64 {
    let mut terms = HashMap::new();
    let (ru, fu) = table(us, wires, false, &mut terms);
    let (rv, fv) = table(vs, wires, true, &mut terms);
    if ru != rv {
        return 1;
    }
    if fu != fv {
        return 2;
    }
    let (mut one, mut two, mut three) = (vec![0u32; wires], HashMap::new(), HashMap::new());
    for (p, k) in terms.into_iter().filter(|(_, k)| *k != 0) {
        let on: Vec<usize> = (0..wires).filter(|q| p >> q & 1 == 1).collect();
        for (x, &i) in on.iter().enumerate() {
            one[i] += k as u32;
            for (y, &j) in on[..x].iter().enumerate() {
                *two.entry((i, j)).or_insert(0u32) += k as u32;
                if k % 2 == 1 {
                    for &l in &on[..y] {
                        *three.entry((i, j, l)).or_insert(0u32) ^= 1;
                    }
                }
            }
        }
    }
    let quiet = one.iter().all(|t| t % 8 == 0) && two.values().all(|t| t % 4 == 0) && three.values().all(|t| *t == 0);
    if quiet { 0 } else { 3 }
}

fn gate(r: &mut Random, wires: usize) -> Gate {
    let a = r.below(wires) as i32;
    let code = if wires > 1 { 1 + r.below(9) } else { 1 + r.below(7) } as i32;
    let line = r.below(3) as i32;
    match code {
        7 => [7, a, 0, 0, r.next() as i32, line],
        8 | 9 => [code, a, ((a as usize + 1 + r.below(wires - 1)) % wires) as i32, 0, 0, line],
        _ => [code, a, 0, 0, 0, line],
    }
}

/// Some gates that act as nothing, up to a constant.
fn nothing(r: &mut Random, wires: usize) -> Vec<Gate> {
    let g = gate(r, wires);
    let (a, b) = (g[1], g[2]);
    match (g[0], r.below(4)) {
        (9, 0) => vec![g, [4, a, 0, 0, 0, 0], [4, b, 0, 0, 0, 0], [8, a, b, 0, 0, 0], [5, b, 0, 0, 0, 0], [8, a, b, 0, 0, 0]],
        (9, 1) => vec![g, [9, b, a, 0, 0, 0]],
        (1 | 8 | 9, _) => vec![g, g],
        (_, 0) => {
            let mut all = vec![[1, a, 0, 0, 0, 0], g, [1, a, 0, 0, 0, 0], g];
            all.rotate_left(r.below(2) * 2);
            all
        }
        _ => vec![g, [7, a, 0, 0, -(turn(&g) as i32), 0]],
    }
}

/// The fifteen parities of four wires, a turn of 1 on each: nothing, though no turn is 0.
fn fifteen(r: &mut Random, wires: usize) -> Vec<Gate> {
    let mut q: Vec<i32> = (0..wires as i32).collect();
    for i in (1..wires).rev() {
        q.swap(i, r.below(i + 1));
    }
    let (t, x) = (|a: usize| [2, q[a], 0, 0, 0, 0], |a: usize, b: usize| [8, q[a], q[b], 0, 0, 0]);
    let mut all = vec![t(0), t(1), t(2), x(0, 1), t(1), x(2, 1), t(1), x(0, 1), t(1), x(2, 1), x(0, 2), t(2), x(0, 2)];
    for b in [0, 1, 0, 2, 0, 1, 0, 2] {
        all.extend([t(3), x(b, 3)]);
    }
    all
}

/// A list, and another that is the same, differs by one gate, one sign or one flip, or is any.
fn pair(r: &mut Random, wires: usize, most: usize) -> (Vec<Gate>, Vec<Gate>) {
    let us: Vec<Gate> = (0..r.below(most + 1)).map(|_| gate(r, wires)).collect();
    let mut vs = us.clone();
    for _ in 0..r.below(4) {
        let at = r.below(vs.len() + 1);
        let new = if wires >= 4 && r.below(4) == 0 { fifteen(r, wires) } else { nothing(r, wires) };
        vs.splice(at..at, new);
    }
    let at = r.below(vs.len() + 1);
    match r.below(8) {
        0 => vs = (0..r.below(most + 1)).map(|_| gate(r, wires)).collect(),
        1 => vs.insert(at, gate(r, wires)),
        2 if !vs.is_empty() => drop(vs.remove(at % vs.len())),
        3 => vs.insert(at, [1, r.below(wires) as i32, 0, 0, 0, 0]),
        4 => {
            if let Some(g) = vs.iter_mut().find(|g| (2..=5).contains(&g[0])) {
                g[0] = [3, 2, 5, 4][g[0] as usize - 2];
            }
        }
        _ => {}
    }
    if r.below(2) == 0 { (us, vs) } else { (vs, us) }
}

/// The refusal of one list on so many wires, by the order of its tests: number, place, field.
fn fault(l: &[i32], wires: usize) -> Option<(u64, u64, u64)> {
    let whole = [(l.len() % WIDTH != 0, 1), (l.len() / WIDTH > MAX_GATES, 2), (wires > MAX_WIRES, 3), (wires > 128, 17)];
    if let Some((_, n)) = whole.into_iter().find(|t| t.0) {
        return Some((n, 0, 0));
    }
    let wire = |x: i32| x >= 0 && (x as usize) < wires;
    for (i, g) in l.chunks(WIDTH).enumerate() {
        let (c, x, y, z) = (g[0], g[1], g[2], g[3]);
        let second = matches!(c, 8 | 9 | 17..=26);
        let third = matches!(c, 24..=26);
        let turned = matches!(c, 7 | 14..=16 | 20..=23);
        let tests = [
            (!(1..=27).contains(&c), 6, 0),
            ((!second && c != 27 && y != 0) || (!third && z != 0) || (!turned && g[4] != 0), 7, 0),
            (!wire(x), 8, 1),
            (second && !wire(y), 8, 2),
            (c == 27, 14, 2),
            (third && !wire(z), 8, 3),
            ((second && x == y) || (third && (x == z || y == z)), 9, 0),
            (c > 9, 16, 0),
            (g[5] < 0, 18, 0),
        ];
        if let Some((_, n, f)) = tests.into_iter().find(|t| t.0) {
            return Some((n, i as u64, f));
        }
    }
    None
}

fn refusal(us: &[i32], vs: &[i32], wires: usize) -> Option<u64> {
    let one = fault(us, wires).map(|f| (1, f));
    let two = || fault(vs, wires).map(|f| (2, f));
    one.or_else(two).map(|(l, (n, p, f))| l << 56 | f << 48 | n << 32 | p)
}

fn damaged(r: &mut Random, l: &mut Vec<i32>) {
    for _ in 0..r.below(3) {
        if l.is_empty() || r.below(12) == 0 {
            l.push(r.below(9) as i32);
        } else {
            let at = r.below(l.len());
            l[at] = if at % WIDTH == 0 { r.below(30) as i32 - 1 } else { r.below(7) as i32 - 2 };
        }
    }
}

/// Now and then one of the lists becomes as long as is taken, or a gate longer.
fn lengthened(r: &mut Random, l: &mut Vec<i32>) {
    if r.below(2000) == 0 {
        while l.len() < WIDTH * (MAX_GATES + r.below(2)) {
            l.extend([1, 0, 0, 0, 0, 0]);
        }
    }
}

fn shortened(us: &[Gate], wires: usize) -> Vec<i32> {
    let l = numbers(us);
    let g = us.len();
    let (mut out, mut terms, mut steps, mut counts) = (vec![0i32; l.len() + 1], vec![0u64; 9 * g + 1], vec![0u32; 2 * (g + 128)], [0u64; 8]);
    let done = unsafe {
        dilkovan_cnot_min(l.as_ptr(), l.len(), wires, 0, 128, 512, out.as_mut_ptr(), l.len(), terms.as_mut_ptr(), terms.len(), steps.as_mut_ptr(), steps.len(), counts.as_mut_ptr())
    };
    assert_eq!(done, 0);
    out.truncate(WIDTH * counts[1] as usize);
    out
}

/// What a door prints.
fn printed(door: unsafe extern "C" fn(*const u8, usize, *mut u8, *mut usize) -> u64, text: &str) -> String {
    let (mut out, mut length) = (vec![0u8; LIST_BYTES], 0);
    assert_eq!(unsafe { door(text.as_ptr(), text.len(), out.as_mut_ptr(), &mut length) }, 0, "{text}");
    out.truncate(length);
    String::from_utf8(out).expect("text")
}

/// The text of a list whose gates have lines.
fn text(gates: &[Gate], wires: usize) -> String {
    let head = format!("head 5\n{wires}\n0\n128\n512\n6\ngates {}\n", gates.len());
    gates.iter().fold(head, |t, g| t + &g.map(|n| n.to_string()).join(" ") + "\n")
}

/// The gates of such a text.
fn read(text: &str) -> Vec<Gate> {
    let rows = text.lines().skip(7).take_while(|l| !l.starts_with("counts"));
    rows.map(|l| l.split(' ').map(|n| n.parse().expect("a number")).collect::<Vec<i32>>().try_into().expect("six numbers")).collect()
}

/// Gates outside the fragment, and the stretches around them.
fn stretches(gates: &[Gate]) -> (Vec<Gate>, Vec<&[Gate]>) {
    (gates.iter().filter(|g| g[0] > 9).copied().collect(), gates.split(|g| g[0] > 9).collect())
}

/// A list for the desk: gates of the fragment, and among them some that are not.
fn handed_in(r: &mut Random, wires: usize) -> Vec<Gate> {
    let often = 2 + r.below(30);
    (0..r.below(TEXT_GATES + 1)).map(|_| if r.below(often) == 0 { [10 + r.below(3) as i32, r.below(wires) as i32, 0, 0, 0, 1] } else { gate(r, wires) }).collect()
}

/// The list program's answer beside its input: how many stretches are the same, and how many of them are new.
fn desk(r: &mut Random) -> (u64, u64) {
    let wires = 1 + r.below(128);
    let mut us = handed_in(r, wires);
    while text(&us, wires).len() > TEXT_BYTES {
        us.truncate(us.len() / 2);
    }
    let vs = read(&printed(dilkovan_list, &text(&us, wires)));
    let ((others, before), (kept, after)) = (stretches(&us), stretches(&vs));
    assert_eq!(others, kept, "{us:?}");
    for (a, b) in before.iter().zip(&after) {
        assert_eq!(asked(&numbers(a), &numbers(b), wires), 0, "on {wires} wires: {a:?} {b:?}");
        let both = text(a, wires) + &text(b, wires);
        if both.len() <= TEXT_BYTES {
            assert_eq!(printed(dilkovan_pair, &both), "same\n", "{both}");
        }
    }
    (before.len() as u64, before.iter().zip(&after).filter(|(a, b)| a != b).count() as u64)
}

fn main() {
    let given: Vec<u64> = std::env::args().skip(1).map(|w| w.parse().expect("a number")).collect();
    let [seed, small, large, refused, blocks, lists] = given[..] else { panic!("alike SEED SMALL LARGE REFUSED BLOCKS DESK") };
    let mut r = Random(seed.wrapping_mul(2).wrapping_add(1));
    let mut told = [0u64; 4];
    for k in 0..small + large {
        let wires = if k < small { 1 + r.below(10) } else { 1 + r.below(128) };
        let (us, vs) = pair(&mut r, wires, if k < small { 24 } else { 60 });
        let meant = if k < small { by_settings(&us, &vs, wires) } else { by_coefficients(&us, &vs, wires) };
        let got = asked(&numbers(&us), &numbers(&vs), wires);
        assert_eq!(got, meant, "pair {k} on {wires} wires: {us:?} {vs:?}");
        told[got as usize] += 1;
    }
    println!("{small} pairs against every setting, {large} against the coefficients: {} same, {} map, {} flips, {} phase", told[0], told[1], told[2], told[3]);
    let mut by = HashMap::<u64, u64>::new();
    for k in 0..refused {
        let wires = [0, 1, 2, 3, 5, 128, 129, MAX_WIRES, MAX_WIRES + 1][r.below(9)];
        let (us, vs) = pair(&mut r, wires.clamp(1, 5), 6);
        let (mut a, mut b) = (numbers(&us), numbers(&vs));
        for l in [&mut a, &mut b] {
            damaged(&mut r, l);
            lengthened(&mut r, l);
        }
        let got = asked(&a, &b, wires);
        match refusal(&a, &b, wires) {
            Some(meant) => {
                assert_eq!(got, meant, "refusal {k} on {wires} wires, {} and {} numbers", a.len(), b.len());
                *by.entry(got >> 56 << 8 | got >> 32 & 0xff).or_default() += 1;
            }
            None => assert!(got < 4, "taken {k} on {wires} wires, {} and {} numbers", a.len(), b.len()),
        }
    }
    let mut by: Vec<_> = by.into_iter().collect();
    by.sort();
    println!("{refused} damaged pairs; refused, by list and number:{}", by.iter().map(|(k, n)| format!(" {}/{} {n}", k >> 8, k & 0xff)).collect::<String>());
    let mut fewer = 0;
    for k in 0..blocks {
        let wires = 1 + r.below(128);
        let us: Vec<Gate> = pair(&mut r, wires, 200).0;
        let new = shortened(&us, wires);
        fewer += (new.len() < us.len() * WIDTH) as u64;
        assert_eq!(asked(&numbers(&us), &new, wires), 0, "block {k} on {wires} wires: {us:?}");
    }
    println!("{blocks} lists of fragment gates and what the pass makes of them, {fewer} of them shorter: all the same");
    let (all, new) = (0..lists).map(|_| desk(&mut r)).fold((0, 0), |(a, n), (b, m)| (a + b, n + m));
    println!("{lists} lists through the list program, {all} stretches, {new} of them written anew: all the same, by the numbers and by the text");
}
