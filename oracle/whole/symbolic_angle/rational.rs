//! Stand-in for the original's rationals: a small fraction, in lowest terms.
use super::{Budget, Error};
use std::{fmt, hash::Hash, hash::Hasher};

#[derive(Clone, Debug, PartialEq, Eq, PartialOrd, Ord, Hash)]
pub struct Rational {
    n: i64,
    d: u64,
}

pub struct Big;

impl num_traits::ToPrimitive for Big {
    fn to_f64(&self) -> Option<f64> {
        unreachable!()
    }
}

impl Rational {
    pub const ZERO: Self = Self { n: 0, d: 1 };
    pub(super) fn canonical(n: i64, d: u64) -> Self {
        Self { n, d }
    }
    pub fn as_small(&self) -> Option<(i64, u64)> {
        Some((self.n, self.d))
    }
    pub fn is_zero(&self) -> bool {
        self.n == 0
    }
    pub(super) fn hash_small<H: Hasher>(n: i64, d: u64, state: &mut H) {
        Self { n, d }.hash(state);
    }

    // what only other angles than multiples of pi/4 reach
    pub(super) fn new(_: i64, _: i64) -> Result<Self, Error> {
        unreachable!()
    }
    pub(super) fn integer(_: i64) -> Self {
        unreachable!()
    }
    pub fn from_bits(_: u64) -> Self {
        unreachable!()
    }
    pub(super) fn add(&self, _: &Self, _: &mut Budget) -> Result<Self, Error> {
        unreachable!()
    }
    pub(super) fn turns(&self, _: u8) -> Option<u8> {
        unreachable!()
    }
    pub fn to_big_rational(&self) -> Big {
        unreachable!()
    }
}

impl fmt::Display for Rational {
    fn fmt(&self, f: &mut fmt::Formatter<'_>) -> fmt::Result {
        write!(f, "{}/{}", self.n, self.d)
    }
}
