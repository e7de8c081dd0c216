//! Stands in for avian's `math`: its names for the 3D build in f32.

use bevy_math::{Isometry3d, Quat, SymmetricMat3, Vec3};

pub const DIM: usize = 3;
pub type RVector = Vec3;
pub use bevy_math::Vec3 as Vector;
pub type AngularVector = Vector;
pub type Rot = Quat;
pub type Isometry = Isometry3d;
pub type SymmetricTensor = SymmetricMat3;

#[inline]
pub fn cross(a: Vec3, b: Vec3) -> Vec3 {
    a.cross(b)
}

pub trait ToRealPrecision {
    type Adjusted;
    fn real(&self) -> Self::Adjusted;
}

impl ToRealPrecision for Vec3 {
    type Adjusted = Vec3;
    fn real(&self) -> Vec3 {
        *self
    }
}

pub trait ToF32Precision {
    type F32;
    fn f32(&self) -> Self::F32;
}

impl ToF32Precision for Vec3 {
    type F32 = Vec3;
    #[inline]
    fn f32(&self) -> Vec3 {
        *self
    }
}

pub trait RecipOrZero {
    fn recip_or_zero(self) -> Self;
}

impl RecipOrZero for f32 {
    fn recip_or_zero(self) -> f32 {
        if self != 0.0 && self.is_finite() {
            1.0 / self
        } else {
            0.0
        }
    }
}

/// A card's joint has its bases as rotations.
pub fn orthonormal_basis(_: [Vector; DIM]) -> Rot {
    unimplemented!("document 01 has no rule for the rotation of a matrix")
}
