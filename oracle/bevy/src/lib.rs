//! The entity framework beneath avian's joint code. Systems are called as functions: a [`Query`] holds what it would
//! find, a [`Res`] what it would read. The types of registration and reflection have no values, so that no such code runs.

pub mod query;

pub mod ecs {
    pub mod component {
        pub struct Mutable;

        /// Every type serves as a component.
        pub trait Component {
            type Mutability;
        }

        impl<T> Component for T {
            type Mutability = Mutable;
        }
    }

    pub mod entity {
        #[derive(Clone, Copy, Debug, PartialEq, Eq)]
        pub struct Entity(pub u32);

        pub trait EntityMapper {
            fn get_mapped(&mut self, entity: Entity) -> Entity;
        }

        pub trait MapEntities {
            fn map_entities<M: EntityMapper>(&mut self, entity_mapper: &mut M);
        }
    }

    pub mod lifecycle {
        pub struct HookContext {
            pub entity: super::entity::Entity,
        }
    }

    pub mod reflect {
        pub enum ReflectMapEntities {}
    }

    pub mod world {
        pub enum DeferredWorld {}

        impl DeferredWorld {
            pub fn resource_mut<R>(&mut self) -> &mut R {
                match *self {}
            }
        }
    }
}

pub mod app {
    pub enum App {}

    impl App {
        pub fn register_type<T>(&mut self) -> &mut Self {
            match *self {}
        }

        pub fn register_required_components<T, R>(&mut self) -> &mut Self {
            match *self {}
        }

        pub fn add_plugins<P>(&mut self, _: P) -> &mut Self {
            match *self {}
        }

        pub fn add_systems<L, S>(&mut self, _: L, _: S) -> &mut Self {
            match *self {}
        }

        pub fn configure_sets<L, S>(&mut self, _: L, _: S) -> &mut Self {
            match *self {}
        }
    }

    pub trait Plugin {
        fn build(&self, app: &mut App);
    }

    /// The order of systems is the caller's.
    pub trait IntoScheduleConfigs: Sized {
        fn chain(self) -> Self {
            self
        }

        fn ambiguous_with_all(self) -> Self {
            self
        }

        fn in_set<S>(self, _: S) -> Self {
            self
        }

        fn before<S>(self, _: S) -> Self {
            self
        }

        fn after<S>(self, _: S) -> Self {
            self
        }
    }

    impl<T> IntoScheduleConfigs for T {}
}

pub mod prelude {
    pub use crate::app::{App, IntoScheduleConfigs, Plugin};
    pub use crate::ecs::{component::Component, entity::Entity};
    pub use crate::query::{Changed, Query, Res, ResMut, Time, With, Without};
    pub use bevy_derive::{Component, Deref, Reflect, Resource, SystemSet};
    pub use bevy_math::{Mat3, Quat, Vec3};
}
