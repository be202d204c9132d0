//! A gate as numbers, by document 01's table, and as the original has it.
use crate::circuit::Gate;
use crate::rest;

/// Numbers that the original knows of a gate.
pub const FIELDS: usize = 5;

/// Numbers to a gate: the line is the last.
pub const WIDTH: usize = FIELDS + 1;

/// The most gates, wires and classical bits that a list may have.
pub const MOST_GATES: usize = 65536;
pub const MOST_WIRES: usize = 4096;
pub const MOST_BITS: usize = 1024;

pub fn gate(n: &[i32]) -> Gate {
    let (a, b, c, turn) = (n[1] as u32, n[2] as u32, n[3] as u32, rest::angle(n[4]));
    let (control, target) = (a, b);
    match n[0] {
        1 => Gate::x(a),
        2 => Gate::t(a),
        3 => Gate::tdg(a),
        4 => Gate::s(a),
        5 => Gate::sdg(a),
        6 => Gate::z(a),
        7 => Gate::rz(turn, a),
        8 => Gate::cnot { control, target },
        9 => Gate::cz { control, target },
        10 => Gate::h(a),
        11 => Gate::y(a),
        12 => Gate::sx(a),
        13 => Gate::reset(a),
        14 => Gate::p(turn, a),
        15 => Gate::rx(turn, a),
        16 => Gate::ry(turn, a),
        17 => Gate::swap(a, b),
        18 => Gate::cy { control, target },
        19 => Gate::ch { control, target },
        20 => Gate::cp { lambda: turn, control, target },
        21 => Gate::crx { theta: turn, control, target },
        22 => Gate::cry { theta: turn, control, target },
        23 => Gate::crz { theta: turn, control, target },
        24 => Gate::ccx { control1: a, control2: b, target: c },
        25 => Gate::ccz { control1: a, control2: b, target: c },
        26 => Gate::cswap { control: a, first: b, second: c },
        27 => Gate::measure { qubit: a, cbit: b },
        code => panic!("no gate has the code {code}"),
    }
}

pub fn numbers(g: &Gate) -> [i32; FIELDS] {
    let one = |code: i32, q: &u32| [code, *q as i32, 0, 0, 0];
    let two = |code: i32, p: &u32, q: &u32| [code, *p as i32, *q as i32, 0, 0];
    match g {
        Gate::x(q) => one(1, q),
        Gate::t(q) => one(2, q),
        Gate::tdg(q) => one(3, q),
        Gate::s(q) => one(4, q),
        Gate::sdg(q) => one(5, q),
        Gate::z(q) => one(6, q),
        Gate::rz(k, q) => [7, *q as i32, 0, 0, rest::turn(k)],
        Gate::cnot { control, target } => two(8, control, target),
        Gate::cz { control, target } => two(9, control, target),
        Gate::h(q) => one(10, q),
        Gate::y(q) => one(11, q),
        Gate::sx(q) => one(12, q),
        Gate::reset(q) => one(13, q),
        Gate::p(k, q) => [14, *q as i32, 0, 0, rest::turn(k)],
        Gate::rx(k, q) => [15, *q as i32, 0, 0, rest::turn(k)],
        Gate::ry(k, q) => [16, *q as i32, 0, 0, rest::turn(k)],
        Gate::swap(p, q) => two(17, p, q),
        Gate::cy { control, target } => two(18, control, target),
        Gate::ch { control, target } => two(19, control, target),
        Gate::cp { lambda, control, target } => [20, *control as i32, *target as i32, 0, rest::turn(lambda)],
        Gate::crx { theta, control, target } => [21, *control as i32, *target as i32, 0, rest::turn(theta)],
        Gate::cry { theta, control, target } => [22, *control as i32, *target as i32, 0, rest::turn(theta)],
        Gate::crz { theta, control, target } => [23, *control as i32, *target as i32, 0, rest::turn(theta)],
        Gate::ccx { control1, control2, target } => [24, *control1 as i32, *control2 as i32, *target as i32, 0],
        Gate::ccz { control1, control2, target } => [25, *control1 as i32, *control2 as i32, *target as i32, 0],
        Gate::cswap { control, first, second } => [26, *control as i32, *first as i32, *second as i32, 0],
        Gate::measure { qubit, cbit } => two(27, qubit, cbit),
    }
}
