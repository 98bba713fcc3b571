//! The fade table of Paper 7, for the changed copy of the Rust (`../../changes/07-fade-table.patch`). Its entries are worked out
//! here from the cosine, so that they are compared with the store's; none is nearer than 0.001 to a half, so an f64 tells which
//! whole number is the nearest.

use std::cell::Cell;
use std::f64::consts::PI;

/// The rate that the table is for, in hertz.
pub const RATE: f32 = 48_000.0;

/// The number of the last entry, and how long a fade is at that rate.
const LAST: usize = 240;

const SCALE: f64 = 16_777_216.0;

thread_local! {
    static CHOSEN: Cell<bool> = const { Cell::new(false) };
}

/// From here on the fades of this thread take their gains from the table, or as published.
pub fn choose(chosen: bool) {
    CHOSEN.set(chosen);
}

/// The gain at sample `k` where the table is chosen.
pub fn gain(k: usize) -> Option<f32> {
    CHOSEN.get().then(|| (entry(k) / SCALE) as f32)
}

/// The whole number nearest to the raised cosine at `k`, scaled.
fn entry(k: usize) -> f64 {
    (SCALE * (1.0 + (PI * k as f64 / LAST as f64).cos()) / 2.0).round()
}
