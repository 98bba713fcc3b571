//! Call scripts from a seed, and what they reach.

mod aims;
mod choices;
mod crowds;
mod keyboards;
mod moves;
pub mod reach;
mod reports;
pub mod scenes;
pub mod script;
mod seals;
pub mod shrink;
mod values;
mod writer;
