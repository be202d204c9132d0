//! Stand-in for the pipeline's options, which the report of failed sums names.
#[derive(PartialEq)]
pub enum PassName {
    PhaseFoldRand,
}

pub struct Options {
    pub passes: Option<Vec<PassName>>,
}
