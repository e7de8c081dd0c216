//! Stands in for avian's `rigid_body` and `mass_properties`: what the joint code reads of a body.

use bevy::query::QueryData;

use crate::math::{Rot, SymmetricTensor, Vector};
use crate::physics_transform::{Position, Rotation};

/// Markers in the filters of queries.
pub enum RigidBody {}
pub enum RigidBodyDisabled {}
pub enum RigidBodyActiveFilter {}

#[derive(Clone, Copy, Debug)]
pub struct ComputedCenterOfMass(pub Vector);

/// The inverse inertia of a tick is handed over turned, and stays so through its stages.
pub enum ComputedAngularInertia {}

impl ComputedAngularInertia {
    pub fn rotated(&self, _: Rot) -> Self {
        match *self {}
    }

    pub fn inverse(&self) -> SymmetricTensor {
        match *self {}
    }
}

/// Bits as in `InertiaFlags`: translation x, y, z and then rotation x, y, z, the highest first.
#[derive(Clone, Copy, Debug)]
pub struct LockedAxes(u8);

impl LockedAxes {
    #[inline]
    pub fn from_bits(bits: u8) -> Self {
        Self(bits)
    }

    #[inline]
    pub fn to_bits(&self) -> u8 {
        self.0
    }

    #[inline]
    pub fn is_rotation_x_locked(&self) -> bool {
        self.0 & 0b000_100 != 0
    }

    #[inline]
    pub fn is_rotation_y_locked(&self) -> bool {
        self.0 & 0b000_010 != 0
    }

    #[inline]
    pub fn is_rotation_z_locked(&self) -> bool {
        self.0 & 0b000_001 != 0
    }
}

pub struct RigidBodyQueryReadOnly {
    pub position: Position,
    pub rotation: Rotation,
    pub center_of_mass: ComputedCenterOfMass,
}

pub struct RigidBodyQueryReadOnlyItem<'q> {
    pub position: &'q Position,
    pub rotation: &'q Rotation,
    pub center_of_mass: &'q ComputedCenterOfMass,
}

impl QueryData for RigidBodyQueryReadOnly {
    type Item<'q> = RigidBodyQueryReadOnlyItem<'q>;
    type ReadOnlyItem<'q> = RigidBodyQueryReadOnlyItem<'q>;

    #[inline]
    fn lend(&mut self) -> RigidBodyQueryReadOnlyItem<'_> {
        Self::read(self)
    }

    #[inline]
    fn read(&self) -> RigidBodyQueryReadOnlyItem<'_> {
        RigidBodyQueryReadOnlyItem {
            position: &self.position,
            rotation: &self.rotation,
            center_of_mass: &self.center_of_mass,
        }
    }
}
