//! avian's joint solver over document 01's arithmetic: what the Rattle must equal bit for bit.

pub mod card;
pub mod compare;
pub mod convert;
pub mod families;
pub mod generate;
#[cfg(feature = "host")]
pub mod host;
pub mod large;
pub mod lean;
pub mod parts;
pub mod solver;
pub mod table;

pub use bevy_math::above_one;
/// Document 01, 'Arithmetic beneath', over plain arrays.
pub use bevy_math::arithmetic as math;
