//! Stands in for avian's `schedule`: names of the sets in which the framework would run the systems.

pub struct PhysicsSchedule;
pub struct SubstepSchedule;
pub struct SubstepCount(pub u32);

pub enum SolverSystems {
    PrepareSolverBodies,
    PrepareJoints,
    Finalize,
}
