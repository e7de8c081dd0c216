//! Stands in for avian's `physics_transform`: positions and rotations of bodies.

use core::ops::{Deref, Mul};

use crate::math::{RVector, Rot, Vector};

#[derive(Clone, Copy, Debug)]
pub struct Position(pub RVector);

#[derive(Clone, Copy, Debug)]
pub struct Rotation(pub Rot);

impl Mul<Vector> for &Rotation {
    type Output = Vector;
    #[inline]
    fn mul(self, vector: Vector) -> Vector {
        self.0 * vector
    }
}

impl From<Rotation> for Rot {
    #[inline]
    fn from(rotation: Rotation) -> Rot {
        rotation.0
    }
}

#[derive(Clone, Copy, Debug)]
pub struct PreSolveDeltaPosition(pub Vector);

#[derive(Clone, Copy, Debug)]
pub struct PreSolveDeltaRotation(pub Rot);

impl Deref for PreSolveDeltaRotation {
    type Target = Rot;
    #[inline]
    fn deref(&self) -> &Rot {
        &self.0
    }
}
