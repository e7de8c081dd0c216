//! avian's joint components, solver bodies and XPBD solver: its own text for all that is computed (see edits.rs), over
//! stand-ins for the modules of avian and of the entity framework that are not among its published joint files.

#![allow(unused, clippy::all)]

include!(concat!(env!("OUT_DIR"), "/modules.rs"));

pub mod math;
pub mod physics_transform;
pub mod prelude;
pub mod rigid_body;
pub mod schedule;

pub use math::SymmetricTensor;
