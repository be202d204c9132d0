//! Stand-in for the crate `num_traits`: the one method that the original's angles ask for.
pub trait ToPrimitive {
    fn to_f64(&self) -> Option<f64>;
}
