//! The departures of docs/DIFFERENCES.md, by their numbers there. Where a script can show one, it is played on both: by the
//! player, which answers what the store answers, and on the Rust with nothing in front of it. The scripts and the store's
//! transcripts are recorded in `oracle/differences`, for the proved program to be compared with.

#[path = "../entries/mod.rs"]
mod entries;

mod arithmetic;
mod behaviour;
mod changes;
mod engines;
mod limits;
mod rows;
mod unguarded;
