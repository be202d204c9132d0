//! The original's own texts of its angles, and stand-ins for what those lack: `optimize`, and under `symbolic_angle` the interner, rationals,
//! views, parser and evaluator. Takes the place of oracle/src/rest.rs and angle.rs in `oracle/build --whole`.
use crate::angle::{Angle, AngleContext};

#[path = "angle_stats.rs"]
pub mod angle_stats;
#[path = "optimize.rs"]
pub mod optimize;
#[path = "pass.rs"]
pub mod pass;
#[path = "symbolic_angle/mod.rs"]
pub mod symbolic_angle;

/// The angle of a turn, and the turn of an angle. No turn is reduced: the fraction of pi holds each one exactly.
pub fn angle(turn: i32) -> Angle {
    AngleContext::default().pi_fraction(turn as i64, 4).expect("a turn is a small fraction of pi")
}

pub fn turn(angle: &Angle) -> i32 {
    if angle.is_zero() {
        return 0;
    }
    let (n, d) = angle.pi_coefficient().and_then(|r| r.as_small()).expect("a multiple of pi/4");
    (n * 4 / d as i64) as i32
}
