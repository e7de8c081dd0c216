//! Stands in for avian's `prelude`.

pub use crate::dynamics::{
    self,
    joints::{
        AngleLimit, AngularMotor, DistanceJoint, DistanceLimit, FixedJoint, JointAnchor,
        JointBasis, JointDisabled, JointForces, JointFrame, LinearMotor, MotorModel,
        PrismaticJoint, RevoluteJoint, SphericalJoint,
    },
};
pub use crate::math::*;
pub use crate::physics_transform::*;
pub use crate::rigid_body::*;
pub use crate::schedule::*;
pub use bevy_math::ScalarArithmetic;
