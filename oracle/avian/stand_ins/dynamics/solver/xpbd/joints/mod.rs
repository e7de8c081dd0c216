//! Stands in for the list of the joints' solvers; reads the solver data whose fields are private to this module.

mod distance;
mod fixed;
mod prismatic;
mod revolute;
mod spherical;

mod shared {
    mod fixed_angle_constraint;
    mod point_constraint;

    pub use fixed_angle_constraint::FixedAngleConstraintShared;
    pub use point_constraint::PointConstraintShared;
}

pub use distance::DistanceJointSolverData;
pub use fixed::FixedJointSolverData;
pub use prismatic::PrismaticJointSolverData;
pub use revolute::RevoluteJointSolverData;
pub use shared::{FixedAngleConstraintShared, PointConstraintShared};
pub use spherical::SphericalJointSolverData;

use super::XpbdConstraintSolverData;
use crate::math::Vector;

/// Document 01's view of a joint's solver data.
pub trait State: XpbdConstraintSolverData + Default {
    /// The last motor total, as if this data had been kept since the last tick. A slide's is in x.
    fn set_motor_total(&mut self, _: [f32; 3]) {}

    /// The motor's total in this data; zero of a kind that has no motor.
    fn motor_total(&self) -> [f32; 3] {
        UNUSED
    }

    /// Four totals of three, in the state's order; places without use are +0.0.
    fn totals(&self) -> [[f32; 3]; 4];

    /// Calls `f` with each prepared number, in the order of their fields.
    fn for_each_number(&self, f: impl FnMut(f32));
}

const UNUSED: [f32; 3] = [0.0; 3];

fn each_of(numbers: &[f32], f: impl FnMut(f32)) {
    numbers.iter().copied().for_each(f);
}

fn each_of_vectors(vectors: &[Vector], mut f: impl FnMut(f32)) {
    for vector in vectors {
        each_of(&vector.to_array(), &mut f);
    }
}

impl PointConstraintShared {
    fn for_each_number(&self, f: impl FnMut(f32)) {
        each_of_vectors(&[self.world_r1, self.world_r2, self.center_difference], f);
    }
}

impl State for FixedJointSolverData {
    fn totals(&self) -> [[f32; 3]; 4] {
        [
            self.point_constraint.total_lagrange.to_array(),
            self.angle_constraint.total_lagrange.to_array(),
            UNUSED,
            UNUSED,
        ]
    }

    fn for_each_number(&self, mut f: impl FnMut(f32)) {
        self.point_constraint.for_each_number(&mut f);
        each_of(&self.angle_constraint.rotation_difference.to_array(), f);
    }
}

impl State for RevoluteJointSolverData {
    fn set_motor_total(&mut self, total: [f32; 3]) {
        self.total_motor_lagrange = total.into();
    }

    fn motor_total(&self) -> [f32; 3] {
        self.total_motor_lagrange.to_array()
    }

    fn totals(&self) -> [[f32; 3]; 4] {
        [
            self.point_constraint.total_lagrange.to_array(),
            self.total_align_lagrange.to_array(),
            self.total_limit_lagrange.to_array(),
            self.motor_total(),
        ]
    }

    fn for_each_number(&self, mut f: impl FnMut(f32)) {
        self.point_constraint.for_each_number(&mut f);
        each_of_vectors(&[self.a1, self.a2, self.b1, self.b2], f);
    }
}

impl State for PrismaticJointSolverData {
    fn set_motor_total(&mut self, total: [f32; 3]) {
        self.total_motor_lagrange = total[0];
    }

    fn motor_total(&self) -> [f32; 3] {
        [self.total_motor_lagrange, 0.0, 0.0]
    }

    fn totals(&self) -> [[f32; 3]; 4] {
        [
            self.total_position_lagrange.to_array(),
            self.angle_constraint.total_lagrange.to_array(),
            self.motor_total(),
            UNUSED,
        ]
    }

    fn for_each_number(&self, mut f: impl FnMut(f32)) {
        let vectors = [
            self.world_r1,
            self.world_r2,
            self.center_difference,
            self.free_axis1,
        ];
        each_of_vectors(&vectors, &mut f);
        each_of(&self.angle_constraint.rotation_difference.to_array(), f);
    }
}

impl State for SphericalJointSolverData {
    fn totals(&self) -> [[f32; 3]; 4] {
        [
            self.point_constraint.total_lagrange.to_array(),
            self.total_swing_lagrange.to_array(),
            self.total_twist_lagrange.to_array(),
            UNUSED,
        ]
    }

    fn for_each_number(&self, mut f: impl FnMut(f32)) {
        self.point_constraint.for_each_number(&mut f);
        let vectors = [
            self.swing_axis1,
            self.swing_axis2,
            self.twist_axis1,
            self.twist_axis2,
        ];
        each_of_vectors(&vectors, f);
    }
}

impl State for DistanceJointSolverData {
    fn totals(&self) -> [[f32; 3]; 4] {
        [self.total_lagrange.to_array(), UNUSED, UNUSED, UNUSED]
    }

    fn for_each_number(&self, f: impl FnMut(f32)) {
        each_of_vectors(&[self.world_r1, self.world_r2, self.center_difference], f);
    }
}
