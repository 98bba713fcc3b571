//! The words of the lines in which answers are compared.

use std::fmt::{Display, Write};

use microsynth::curve::{GlideShape, GlideSpace};
use microsynth::engine::StealRecord;

/// The pattern of an f32 in eight digits, every NaN as the same.
pub fn hex32(x: f32) -> String {
    let bits = x.to_bits();
    let is_nan = bits & 0x7fff_ffff > 0x7f80_0000;
    format!("{:08x}", if is_nan { 0x7fc0_0000 } else { bits })
}

/// What may be missing, as a number or `-`.
pub fn or_dash<T: ToString>(value: Option<T>) -> String {
    value.map_or_else(|| "-".to_string(), |v| v.to_string())
}

/// A word, and then numbers, samples or the like.
pub fn row<T: Display>(word: &str, rest: impl IntoIterator<Item = T>) -> String {
    let mut line = word.to_string();
    for item in rest {
        write!(line, " {item}").expect("a string can be written");
    }
    line
}

/// Target, seconds, shape and space of a glide.
pub fn glide(target: f32, seconds: f32, shape: GlideShape, space: GlideSpace) -> String {
    let shape = match shape {
        GlideShape::Hold => "hold".to_string(),
        GlideShape::Linear => "linear".to_string(),
        GlideShape::Sine => "sine".to_string(),
        GlideShape::Exponential(tension) => format!("exponential {}", hex32(tension)),
    };
    let space = match space {
        GlideSpace::Raw => "raw",
        GlideSpace::Pitch => "pitch",
    };
    format!("{} {} {shape} {space}", hex32(target), hex32(seconds))
}

/// Sample, level and mark of a steal.
pub fn steal(record: &StealRecord) -> String {
    let cut = if record.cut { "cut" } else { "faded" };
    format!("{} {} {cut}", record.sample, or_dash(record.level.map(hex32)))
}
