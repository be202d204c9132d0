//! Stand-in for the views of expressions.
use super::{Angle, Function, Rational};

pub enum ExpressionRef<'a> {
    Rational(Rational),
    Pi(Rational),
    Sum(std::vec::IntoIter<(&'a Rational, &'a Angle)>),
    Product { coefficient: &'a Rational, factors: &'a [Angle] },
    Power(&'a Angle, i64),
    Function(Function, &'a Angle),
}

impl Angle {
    pub fn expression(&self) -> ExpressionRef<'_> {
        match self.pi_coefficient() {
            Some(r) => ExpressionRef::Pi(r),
            None => ExpressionRef::Rational(Rational::ZERO),
        }
    }
}
