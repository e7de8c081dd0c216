//! Stands in for the plugin of solver bodies; reads the fields of an inertia that are private to its module.

use super::SolverBodyInertia;

pub enum SolverBodyPlugin {}

impl SolverBodyInertia {
    #[inline]
    pub fn inv_mass(&self) -> f32 {
        self.inv_mass
    }
}
