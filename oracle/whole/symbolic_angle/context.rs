//! Stand-in for the interner of expressions. No angle here is more than a fraction of pi, so it interns nothing. Negating and merging go
//! through the original's own `PhaseAccumulator`; that they are its difference and its sum is document 01's reading.
use super::*;

pub struct InternerStats;

#[derive(Default)]
pub struct AngleContext {
    limits: Limits,
}

fn gcd(a: u64, b: u64) -> u64 {
    if b == 0 { a } else { gcd(b, a % b) }
}

impl AngleContext {
    pub fn with_limits(limits: Limits) -> Self {
        Self { limits }
    }
    pub fn with_run_budget(self) -> Self {
        self
    }
    pub fn limits(&self) -> Limits {
        self.limits
    }
    pub fn pi_fraction(&mut self, n: i64, d: i64) -> Result<Angle, Error> {
        if n == 0 {
            return Ok(Angle::ZERO);
        }
        let g = gcd(n.unsigned_abs(), d.unsigned_abs()) as i64;
        let (n, d) = (n / g, d / g);
        let n = n.try_into().map_err(|_| Error::RepresentationLimit)?;
        let d = d.try_into().map_err(|_| Error::RepresentationLimit)?;
        Ok(Angle(Value::Pi { n, d }))
    }
    pub fn neg(&mut self, angle: &Angle) -> Result<Angle, Error> {
        let mut sum = PhaseAccumulator::new(RotationPeriod::TwoPi, self.limits);
        sum.sub(self, angle)?;
        sum.finish(self)
    }
    pub fn merge_phases(&mut self, angle: &Angle, sign: i8, rhs: &Angle) -> Result<Angle, Error> {
        let mut sum = PhaseAccumulator::new(RotationPeriod::TwoPi, self.limits);
        if sign == 1 { sum.add(self, angle)? } else { sum.sub(self, angle)? }
        sum.add(self, rhs)?;
        sum.finish(self)
    }
    pub(super) fn charge_run(&mut self, _: &[&Angle]) -> Result<(), Error> {
        Ok(())
    }

    // what only other angles than multiples of pi/4 reach
    pub fn rational(&mut self, _: i64, _: i64) -> Result<Angle, Error> {
        unreachable!()
    }
    pub fn parse(&mut self, _: &str) -> Result<Angle, Error> {
        unreachable!()
    }
    pub fn half(&mut self, _: &Angle) -> Result<Angle, Error> {
        unreachable!()
    }
    pub fn add(&mut self, _: &Angle, _: &Angle) -> Result<Angle, Error> {
        unreachable!()
    }
    pub fn sub(&mut self, _: &Angle, _: &Angle) -> Result<Angle, Error> {
        unreachable!()
    }
    pub(super) fn terms(&mut self, _: &Angle, _: &Rational, _: &mut Vec<Term>, _: &mut Budget) -> Result<(), Error> {
        unreachable!()
    }
    pub(super) fn sum(&mut self, _: Vec<Term>, _: &mut Budget) -> Result<Angle, Error> {
        unreachable!()
    }
    pub(super) fn number(&mut self, _: Rational, _: bool, _: &mut Budget) -> Result<Angle, Error> {
        unreachable!()
    }
}
