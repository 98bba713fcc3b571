//! Floats at and around the edges of their formats.

use crate::rng::Rng;

const EDGES_32: [u32; 20] = [
    0x0000_0000, // +0
    0x8000_0000, // -0
    0x0000_0001, // the smallest
    0x8000_0001,
    0x007f_ffff, // the largest subnormal
    0x0080_0000, // the smallest normal
    0x0080_0001,
    0x3f7f_ffff, // just below 1
    0x3f80_0000, // 1
    0x3f80_0001,
    0xbf80_0000, // -1
    0x40e0_0000, // 7
    0x7f7f_ffff, // the largest
    0xff7f_ffff,
    0x7f80_0000, // infinities
    0xff80_0000,
    0x7fc0_0000, // NaNs, quiet and signalling
    0xffc0_0000,
    0x7f80_0001,
    0xffff_ffff,
];

/// What the samples of a block look like.
#[derive(Clone, Copy)]
pub enum Profile {
    /// Between -1 and 1.
    Audio,
    /// Any patterns.
    Any,
    /// The edges of the format.
    Edges,
    /// Numbers below the smallest normal one, and both zeros.
    Subnormal,
    /// Small whole numbers.
    Whole,
    /// Audio with an edge here and there.
    Mixed,
}

pub const PROFILES: [Profile; 6] =
    [Profile::Audio, Profile::Any, Profile::Edges, Profile::Subnormal, Profile::Whole, Profile::Mixed];

impl Profile {
    pub fn sample(self, rng: &mut Rng) -> f32 {
        match self {
            Profile::Audio => (rng.word() as i32) as f32 / 2_147_483_648.0,
            Profile::Any => f32::from_bits(rng.word()),
            Profile::Edges => f32::from_bits(*rng.pick(&EDGES_32)),
            Profile::Subnormal => f32::from_bits(rng.word() & 0x807f_ffff),
            Profile::Whole => rng.below(33) as f32 - 16.0,
            Profile::Mixed if rng.once_in(12) => Profile::Edges.sample(rng),
            Profile::Mixed => Profile::Audio.sample(rng),
        }
    }

    pub fn samples(self, rng: &mut Rng, count: usize) -> Vec<f32> {
        (0..count).map(|_| self.sample(rng)).collect()
    }
}

/// A block of some profile.
pub fn block(rng: &mut Rng, count: usize) -> Vec<f32> {
    rng.pick(&PROFILES).samples(rng, count)
}

pub const EDGES_64: [u64; 28] = [
    0x0000_0000_0000_0000,
    0x8000_0000_0000_0000,
    0x0000_0000_0000_0001,
    0x0000_0000_0000_0002,
    0x0000_0000_0000_0003,
    0x000f_ffff_ffff_ffff,
    0x0010_0000_0000_0000,
    0x0010_0000_0000_0001,
    0x001f_ffff_ffff_ffff,
    0x0020_0000_0000_0000,
    0x368f_ffff_ffff_ffff, // around half of the smallest f32
    0x3690_0000_0000_0000,
    0x3690_0000_0000_0001,
    0x36a0_0000_0000_0000, // the smallest f32
    0x380f_ffff_c000_0000, // the largest subnormal f32
    0x380f_ffff_e000_0000, // half a step above it
    0x3810_0000_0000_0000, // the smallest normal f32
    0x3fef_ffff_ffff_ffff,
    0x3ff0_0000_0000_0000,
    0x3ff0_0000_0000_0001,
    0x4039_0000_0000_0000, // 25
    0x47ef_ffff_e000_0000, // the largest f32
    0x47ef_ffff_efff_ffff, // around half a step above it
    0x47ef_ffff_f000_0000,
    0x7fef_ffff_ffff_ffff, // the largest f64
    0x7ff0_0000_0000_0000,
    0x7ff0_0000_0000_0001, // NaNs
    0x7ff8_0000_0000_0000,
];

/// A pattern a few steps away from another.
fn near(rng: &mut Rng, bits: u64) -> u64 {
    bits.wrapping_add(rng.below(5) as u64).wrapping_sub(2)
}

fn edge_64(rng: &mut Rng) -> u64 {
    let edge = *rng.pick(&EDGES_64);
    if rng.flag() { edge } else { near(rng, edge) }
}

/// A number to narrow: any, an edge, one at or next to the middle of two f32, or one in f32's subnormal range.
pub fn to_narrow(rng: &mut Rng) -> f64 {
    let narrow = rng.word() & 0xff7f_ffff;
    let bits = match rng.below(6) {
        0 => rng.bits(),
        1 => edge_64(rng) | rng.bits() & (1 << 63),
        2 => f64::from(f32::from_bits(narrow)).to_bits(),
        3 => f64::from(f32::from_bits(narrow)).to_bits() + 0x1000_0000,
        4 => near(rng, f64::from(f32::from_bits(narrow)).to_bits() + 0x1000_0000),
        // Exponents from below half of the smallest f32 to its first normal one, with few or with all digits.
        _ => {
            let exponent = rng.within(0x367, 0x383) as u64;
            let digits = rng.bits() >> 12;
            let kept = if rng.flag() { digits } else { digits & !0 << rng.within(20, 52) };
            exponent << 52 | kept & 0x000f_ffff_ffff_ffff | rng.bits() & (1 << 63)
        }
    };
    f64::from_bits(bits)
}

/// A number to take the root of: any, an edge, a square or next to one, or one whose root lies next to the middle of
/// two f64.
pub fn to_root(rng: &mut Rng) -> f64 {
    let positive = rng.bits() >> 1;
    let bits = match rng.below(8) {
        0 => rng.bits(),
        1 => edge_64(rng),
        2 => positive,
        3 => {
            let digits = rng.bits() >> rng.within(32, 63);
            near(rng, ((digits * digits) as f64).to_bits())
        }
        4 => {
            let x = f64::from_bits(positive % 0x5fe0_0000_0000_0000);
            near(rng, (x * x).to_bits())
        }
        5 => {
            let r = u128::from(rng.bits() >> 12 | 1 << 52);
            let square = (r * r + r) as f64;
            let scaled = square * 2f64.powi(rng.within(0, 900) as i32 - 500);
            near(rng, scaled.to_bits())
        }
        6 => positive >> 11, // subnormal
        _ => (rng.below(0x7ff) as u64) << 52,
    };
    f64::from_bits(bits)
}
