//! Stands in for the list of avian's `dynamics`.

pub mod joints;
pub mod solver;
