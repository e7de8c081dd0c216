//! Stands in for the list of avian's `solver`, its configuration and the names of its sets.

pub mod solver_body;
pub mod xpbd;

use crate::math::Rot;

pub struct SolverConfig {
    pub warm_start_coefficient: f32,
}

pub mod schedule {
    pub enum SubstepSolverSystems {
        WarmStart,
        Relax,
        Damping,
    }
}
