//! What a system is called with.

use core::marker::PhantomData;
use core::ops::{Deref, DerefMut};

use crate::ecs::entity::Entity;

/// Data of one entity, held by a query and lent to the system.
pub trait QueryData {
    type Item<'q>
    where
        Self: 'q;
    type ReadOnlyItem<'q>
    where
        Self: 'q;

    fn lend(&mut self) -> Self::Item<'_>;
    fn read(&self) -> Self::ReadOnlyItem<'_>;
}

impl<T> QueryData for &T {
    type Item<'q>
        = &'q T
    where
        Self: 'q;
    type ReadOnlyItem<'q>
        = &'q T
    where
        Self: 'q;

    #[inline]
    fn lend(&mut self) -> &T {
        self
    }

    #[inline]
    fn read(&self) -> &T {
        self
    }
}

impl<T> QueryData for &mut T {
    type Item<'q>
        = &'q mut T
    where
        Self: 'q;
    type ReadOnlyItem<'q>
        = &'q T
    where
        Self: 'q;

    #[inline]
    fn lend(&mut self) -> &mut T {
        self
    }

    #[inline]
    fn read(&self) -> &T {
        self
    }
}

macro_rules! query_data_of_tuple {
    ($($Part:ident $place:tt),*) => {
        impl<$($Part: QueryData),*> QueryData for ($($Part,)*) {
            type Item<'q> = ($($Part::Item<'q>,)*) where Self: 'q;
            type ReadOnlyItem<'q> = ($($Part::ReadOnlyItem<'q>,)*) where Self: 'q;

            #[inline]
            fn lend(&mut self) -> Self::Item<'_> {
                ($(self.$place.lend(),)*)
            }

            #[inline]
            fn read(&self) -> Self::ReadOnlyItem<'_> {
                ($(self.$place.read(),)*)
            }
        }
    };
}

query_data_of_tuple!(A 0, B 1);
query_data_of_tuple!(A 0, B 1, C 2);

/// At most two entities, as a joint has two bodies. The filter is the caller's choice of entities.
pub struct Query<D, F = ()> {
    found: [Option<(Entity, D)>; 2],
    filter: PhantomData<F>,
}

impl<D, F> Query<D, F> {
    #[inline]
    pub fn of_one(entity: Entity, data: D) -> Self {
        Self {
            found: [Some((entity, data)), None],
            filter: PhantomData,
        }
    }

    #[inline]
    pub fn of_two(first: (Entity, D), second: (Entity, D)) -> Self {
        Self {
            found: [Some(first), Some(second)],
            filter: PhantomData,
        }
    }
}

#[derive(Debug)]
pub struct QueryEntityError;

impl<D: QueryData, F> Query<D, F> {
    #[inline]
    pub fn get(&self, entity: Entity) -> Result<D::ReadOnlyItem<'_>, QueryEntityError> {
        self.found
            .iter()
            .flatten()
            .find(|(of, _)| *of == entity)
            .map(|(_, data)| data.read())
            .ok_or(QueryEntityError)
    }

    #[inline]
    pub fn get_many(
        &self,
        [first, second]: [Entity; 2],
    ) -> Result<[D::ReadOnlyItem<'_>; 2], QueryEntityError> {
        Ok([self.get(first)?, self.get(second)?])
    }
}

impl<'q, D: QueryData, F> IntoIterator for &'q mut Query<D, F> {
    type Item = D::Item<'q>;
    type IntoIter = core::iter::Map<
        core::iter::Flatten<core::slice::IterMut<'q, Option<(Entity, D)>>>,
        fn(&'q mut (Entity, D)) -> D::Item<'q>,
    >;

    #[inline]
    fn into_iter(self) -> Self::IntoIter {
        self.found.iter_mut().flatten().map(|(_, data)| data.lend())
    }
}

impl<'q, D: QueryData, F> IntoIterator for &'q Query<D, F> {
    type Item = D::ReadOnlyItem<'q>;
    type IntoIter = core::iter::Map<
        core::iter::Flatten<core::slice::Iter<'q, Option<(Entity, D)>>>,
        fn(&'q (Entity, D)) -> D::ReadOnlyItem<'q>,
    >;

    #[inline]
    fn into_iter(self) -> Self::IntoIter {
        self.found.iter().flatten().map(|(_, data)| data.read())
    }
}

/// Filters of a query.
pub struct With<T>(PhantomData<T>);
pub struct Without<T>(PhantomData<T>);
pub struct Changed<T>(PhantomData<T>);

pub struct Res<'w, T>(&'w T);

impl<'w, T> Res<'w, T> {
    #[inline]
    pub fn new(resource: &'w T) -> Self {
        Self(resource)
    }
}

impl<T> Deref for Res<'_, T> {
    type Target = T;
    #[inline]
    fn deref(&self) -> &T {
        self.0
    }
}

pub struct ResMut<'w, T>(&'w mut T);

impl<'w, T> ResMut<'w, T> {
    #[inline]
    pub fn new(resource: &'w mut T) -> Self {
        Self(resource)
    }
}

impl<T> Deref for ResMut<'_, T> {
    type Target = T;
    #[inline]
    fn deref(&self) -> &T {
        self.0
    }
}

impl<T> DerefMut for ResMut<'_, T> {
    #[inline]
    fn deref_mut(&mut self) -> &mut T {
        self.0
    }
}

pub struct Time {
    pub delta_secs: f32,
}

impl Time {
    #[inline]
    pub fn delta_secs(&self) -> f32 {
        self.delta_secs
    }
}
