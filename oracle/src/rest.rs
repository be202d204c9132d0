//! Stand-ins for what else the original names: never reached, since no angle here is symbolic. `oracle/build --whole` takes the original's own
//! texts in their place (oracle/whole/rest.rs).
use crate::angle::Angle;

/// The angle of a turn, and the turn of an angle.
pub fn angle(turn: i32) -> Angle {
    Angle(turn)
}

pub fn turn(angle: &Angle) -> i32 {
    angle.0
}

pub mod angle_stats {
    pub fn failure(_: crate::angle::AngleError) {}
}

pub mod symbolic_angle {
    use crate::angle::{Angle, AngleContext, AngleError, Limits, RotationPeriod};
    pub struct PhaseAccumulator;
    impl PhaseAccumulator {
        pub fn new(_: RotationPeriod, _: Limits) -> Self {
            unreachable!("no angle is symbolic")
        }
        pub fn add(&mut self, _: &mut AngleContext, _: &Angle) -> Result<(), AngleError> {
            Err(AngleError)
        }
        pub fn sub(&mut self, _: &mut AngleContext, _: &Angle) -> Result<(), AngleError> {
            Err(AngleError)
        }
        pub fn finish(&mut self, _: &mut AngleContext) -> Result<Angle, AngleError> {
            Err(AngleError)
        }
    }
}

pub mod pass {
    use crate::circuit::Circuit;
    #[derive(Default)]
    pub struct PassState {
        pub angles: crate::angle::AngleContext,
    }
    pub trait Pass<Output = Circuit> {
        fn name(&self) -> &str;
        fn run(&self, circuit: &Circuit) -> Output;
        fn run_with_state(&self, circuit: &Circuit, _state: &mut PassState) -> Output {
            self.run(circuit)
        }
    }
}
