//! The vector library beneath avian's joint code, under `bevy_math`'s names. Its operations are those of [`arithmetic`].

pub mod above_one;
pub mod arithmetic;

use core::ops::{Add, AddAssign, Div, Mul, Neg, Sub, SubAssign};

/// Rules of document 01 in place of f32's own functions.
pub trait ScalarArithmetic {
    fn squared(self) -> f32;
    fn arc_sine(self) -> f32;
    fn arc_tangent(self, x: f32) -> f32;
}

impl ScalarArithmetic for f32 {
    #[inline]
    fn squared(self) -> f32 {
        arithmetic::squared(self)
    }

    #[inline]
    fn arc_sine(self) -> f32 {
        above_one::note(self);
        arithmetic::asin(self)
    }

    #[inline]
    fn arc_tangent(self, x: f32) -> f32 {
        arithmetic::atan2(self, x)
    }
}

#[derive(Clone, Copy, Debug, Default, PartialEq)]
pub struct Vec3 {
    pub x: f32,
    pub y: f32,
    pub z: f32,
}

impl From<[f32; 3]> for Vec3 {
    #[inline]
    fn from([x, y, z]: [f32; 3]) -> Self {
        Self { x, y, z }
    }
}

impl From<Vec3> for [f32; 3] {
    #[inline]
    fn from(v: Vec3) -> Self {
        [v.x, v.y, v.z]
    }
}

impl Vec3 {
    pub const ZERO: Self = Self {
        x: 0.0,
        y: 0.0,
        z: 0.0,
    };
    pub const X: Self = Self {
        x: 1.0,
        y: 0.0,
        z: 0.0,
    };
    pub const Y: Self = Self {
        x: 0.0,
        y: 1.0,
        z: 0.0,
    };
    pub const Z: Self = Self {
        x: 0.0,
        y: 0.0,
        z: 1.0,
    };

    #[inline]
    pub const fn splat(v: f32) -> Self {
        Self { x: v, y: v, z: v }
    }

    #[inline]
    pub fn to_array(self) -> [f32; 3] {
        self.into()
    }

    #[inline]
    pub fn dot(self, other: Self) -> f32 {
        arithmetic::dot(self.into(), other.into())
    }

    #[inline]
    pub fn cross(self, other: Self) -> Self {
        arithmetic::cross(self.into(), other.into()).into()
    }

    #[inline]
    pub fn length(self) -> f32 {
        arithmetic::length(self.into())
    }

    #[inline]
    pub fn length_squared(self) -> f32 {
        self.dot(self)
    }

    #[inline]
    pub fn clamp_length_max(self, max: f32) -> Self {
        arithmetic::clamp_length_max(self.into(), max).into()
    }

    #[inline]
    pub fn any_orthonormal_vector(self) -> Self {
        arithmetic::any_orthonormal(self.into()).into()
    }

    #[inline]
    pub fn any_orthogonal_vector(self) -> Self {
        arithmetic::any_orthogonal(self.into()).into()
    }

    #[inline]
    pub fn max_element(self) -> f32 {
        arithmetic::max_element(self.into())
    }
}

impl Add for Vec3 {
    type Output = Self;
    #[inline]
    fn add(self, other: Self) -> Self {
        arithmetic::add(self.into(), other.into()).into()
    }
}

impl AddAssign for Vec3 {
    #[inline]
    fn add_assign(&mut self, other: Self) {
        *self = *self + other;
    }
}

impl Sub for Vec3 {
    type Output = Self;
    #[inline]
    fn sub(self, other: Self) -> Self {
        arithmetic::sub(self.into(), other.into()).into()
    }
}

impl SubAssign for Vec3 {
    #[inline]
    fn sub_assign(&mut self, other: Self) {
        *self = *self - other;
    }
}

impl Neg for Vec3 {
    type Output = Self;
    #[inline]
    fn neg(self) -> Self {
        arithmetic::neg(self.into()).into()
    }
}

impl Mul<f32> for Vec3 {
    type Output = Self;
    #[inline]
    fn mul(self, s: f32) -> Self {
        arithmetic::scale(self.into(), s).into()
    }
}

impl Mul<Vec3> for f32 {
    type Output = Vec3;
    #[inline]
    fn mul(self, v: Vec3) -> Vec3 {
        v * self
    }
}

/// By components, as an inverse mass with locked axes is a vector.
impl Mul for Vec3 {
    type Output = Self;
    #[inline]
    fn mul(self, other: Self) -> Self {
        Self {
            x: self.x * other.x,
            y: self.y * other.y,
            z: self.z * other.z,
        }
    }
}

impl Div<f32> for Vec3 {
    type Output = Self;
    #[inline]
    fn div(self, s: f32) -> Self {
        arithmetic::divide(self.into(), s).into()
    }
}

#[derive(Clone, Copy, Debug, PartialEq)]
pub struct Quat {
    pub x: f32,
    pub y: f32,
    pub z: f32,
    pub w: f32,
}

impl From<[f32; 4]> for Quat {
    #[inline]
    fn from([x, y, z, w]: [f32; 4]) -> Self {
        Self { x, y, z, w }
    }
}

impl From<Quat> for [f32; 4] {
    #[inline]
    fn from(q: Quat) -> Self {
        [q.x, q.y, q.z, q.w]
    }
}

impl Default for Quat {
    fn default() -> Self {
        Self::IDENTITY
    }
}

impl Quat {
    pub const IDENTITY: Self = Self {
        x: 0.0,
        y: 0.0,
        z: 0.0,
        w: 1.0,
    };

    #[inline]
    pub fn to_array(self) -> [f32; 4] {
        self.into()
    }

    #[inline]
    pub fn xyz(self) -> Vec3 {
        Vec3 {
            x: self.x,
            y: self.y,
            z: self.z,
        }
    }

    #[inline]
    pub fn inverse(self) -> Self {
        arithmetic::inverse(self.into()).into()
    }

    #[inline]
    pub fn mul_quat(self, other: Self) -> Self {
        arithmetic::product(self.into(), other.into()).into()
    }

    #[inline]
    pub fn from_axis_angle(axis: Vec3, angle: f32) -> Self {
        arithmetic::from_axis_angle(axis.into(), angle).into()
    }

    #[inline]
    pub fn from_scaled_axis(v: Vec3) -> Self {
        arithmetic::from_scaled_axis(v.into()).into()
    }
}

impl Mul for Quat {
    type Output = Self;
    #[inline]
    fn mul(self, other: Self) -> Self {
        self.mul_quat(other)
    }
}

impl Mul<Vec3> for Quat {
    type Output = Vec3;
    #[inline]
    fn mul(self, v: Vec3) -> Vec3 {
        arithmetic::turn(self.into(), v.into()).into()
    }
}

#[derive(Clone, Copy, Debug)]
pub struct Mat3 {
    columns: [[f32; 3]; 3],
}

impl Mat3 {
    #[inline]
    pub fn from_quat(q: Quat) -> Self {
        Self {
            columns: arithmetic::matrix(q.into()),
        }
    }
}

impl Mul<Vec3> for Mat3 {
    type Output = Vec3;
    #[inline]
    fn mul(self, v: Vec3) -> Vec3 {
        arithmetic::matrix_times(self.columns, v.into()).into()
    }
}

#[derive(Clone, Copy, Debug, PartialEq)]
pub struct SymmetricMat3 {
    pub m00: f32,
    pub m01: f32,
    pub m02: f32,
    pub m11: f32,
    pub m12: f32,
    pub m22: f32,
}

impl From<[f32; 6]> for SymmetricMat3 {
    #[inline]
    fn from([m00, m01, m02, m11, m12, m22]: [f32; 6]) -> Self {
        Self {
            m00,
            m01,
            m02,
            m11,
            m12,
            m22,
        }
    }
}

impl From<SymmetricMat3> for [f32; 6] {
    #[inline]
    fn from(t: SymmetricMat3) -> Self {
        [t.m00, t.m01, t.m02, t.m11, t.m12, t.m22]
    }
}

impl SymmetricMat3 {
    pub const ZERO: Self = Self {
        m00: 0.0,
        m01: 0.0,
        m02: 0.0,
        m11: 0.0,
        m12: 0.0,
        m22: 0.0,
    };
}

impl Mul<Vec3> for SymmetricMat3 {
    type Output = Vec3;
    #[inline]
    fn mul(self, v: Vec3) -> Vec3 {
        arithmetic::tensor_times(self.into(), v.into()).into()
    }
}

/// A translation and a rotation; no card's joint is given by one.
#[derive(Clone, Copy, Debug, PartialEq)]
pub struct Isometry3d {
    pub translation: Vec3,
    pub rotation: Quat,
}

impl Isometry3d {
    pub fn new(translation: Vec3, rotation: Quat) -> Self {
        Self {
            translation,
            rotation,
        }
    }
}
