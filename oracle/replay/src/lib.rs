//! Plays call scripts on the Rust (docs/REPLAY.md).

mod definition;
mod host;
pub mod orders;
mod outcomes;
pub mod player;
mod reading;
mod render;
pub mod script;
pub mod seal;
mod spawn;
pub mod store;
mod voices;
mod wishes;
