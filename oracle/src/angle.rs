//! Stand-in for the angle modules: an angle is a signed count of pi/4, as document 01 reads it.
//! `turns`, merging and negation are numbers modulo 8; `try_emit` is the original's match, word for word.
use crate::circuit::{Gate, Qubit};

#[derive(Clone, Debug)]
pub struct Angle(pub i32);

#[derive(Clone, Copy, Debug)]
pub struct AngleError;

#[derive(Clone, Copy, Debug)]
pub struct Limits;

#[derive(Clone, Copy, Debug)]
pub enum RotationPeriod {
    TwoPi,
}

#[derive(Default)]
pub struct AngleContext;

impl AngleContext {
    pub fn limits(&self) -> Limits {
        Limits
    }
    pub fn with_run_budget(self) -> Self {
        self
    }
    pub fn neg(&mut self, angle: &Angle) -> Result<Angle, AngleError> {
        Ok(Angle((8 - angle.0.rem_euclid(8)) % 8))
    }
}

impl PartialEq for Angle {
    fn eq(&self, rhs: &Self) -> bool {
        self.0 == rhs.0
    }
}

impl Angle {
    pub const ZERO: Self = Self(0);
    pub(crate) fn turns(k: u8) -> Self {
        Self(k as i32)
    }
    pub(crate) fn expression_depth(&self) -> usize {
        1
    }
    pub(crate) fn literal_eq(&self, rhs: &Self) -> bool {
        self == rhs
    }
    pub fn from_f64(_: f64) -> Result<Self, AngleError> {
        Err(AngleError)
    }
    pub(crate) fn merge_phases_with(&self, _: &mut AngleContext, sign: i8, rhs: &Self) -> Result<Self, AngleError> {
        Ok(Self((self.0.rem_euclid(8) + sign as i32 * rhs.0.rem_euclid(8)).rem_euclid(8)))
    }
    pub(crate) fn projective_quarters(&self) -> Option<u8> {
        Some(self.0.rem_euclid(8) as u8)
    }
    pub(crate) fn projective_identity(&self) -> bool {
        self.projective_quarters() == Some(0)
    }
    pub(crate) fn try_emit(&self, q: Qubit, push: &mut impl FnMut(Gate) -> bool) -> bool {
        match self.projective_quarters() {
            Some(0) => true,
            Some(1) => push(Gate::t(q)),
            Some(2) => push(Gate::s(q)),
            Some(3) => push(Gate::s(q)) && push(Gate::t(q)),
            Some(4) => push(Gate::z(q)),
            Some(5) => push(Gate::z(q)) && push(Gate::t(q)),
            Some(6) => push(Gate::sdg(q)),
            Some(7) => push(Gate::tdg(q)),
            _ => unreachable!("a turn is reduced modulo 8"),
        }
    }
}

impl std::fmt::Display for Angle {
    fn fmt(&self, f: &mut std::fmt::Formatter<'_>) -> std::fmt::Result {
        write!(f, "{}*pi/4", self.0)
    }
}
