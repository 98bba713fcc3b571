//! Seeded random choices, from which vectors and scripts are made: the same seed gives the same ones everywhere.

pub mod definitions;
pub mod floats;
pub mod rng;
