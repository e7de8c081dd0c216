//! Stands in for the component of a distance joint, by the fields that its solver reads.

use crate::{dynamics::joints::EntityConstraint, prelude::*};
use bevy::{
    ecs::entity::{EntityMapper, MapEntities},
    prelude::*,
};

#[derive(Clone, Debug, PartialEq)]
pub struct DistanceJoint {
    pub body1: Entity,
    pub body2: Entity,
    pub anchor1: JointAnchor,
    pub anchor2: JointAnchor,
    pub limits: DistanceLimit,
    pub compliance: f32,
}

impl EntityConstraint<2> for DistanceJoint {
    fn entities(&self) -> [Entity; 2] {
        [self.body1, self.body2]
    }
}

impl MapEntities for DistanceJoint {
    fn map_entities<M: EntityMapper>(&mut self, entity_mapper: &mut M) {
        self.body1 = entity_mapper.get_mapped(self.body1);
        self.body2 = entity_mapper.get_mapped(self.body2);
    }
}

pub(super) fn plugin(_: &mut App) {}
