//! What a script needs to drive the Rust: a generator with no sound of its own, and the limits of the store that the
//! Rust does not have.

pub mod definition;
pub mod generator;
pub mod graph;
pub mod limits;
pub mod name;
pub mod queue;
pub mod words;
