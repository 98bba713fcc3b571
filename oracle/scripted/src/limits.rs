//! The limits of the store that the Rust does not have, as the refusal table of the scope states them. Where a call is
//! refused by them it is not passed on to the Rust.

/// A refusal's number.
pub type Refusal = u8;

pub const NODES: usize = 512;
pub const EDGES: usize = 1024;
pub const EVENTS: usize = 256;
pub const VOICES: usize = 64;
pub const BUDGET: usize = 64;
/// How many node ids there are, and how many voice ids: the latter start at 1.
pub const NODE_IDS: u64 = 1 << 32;
pub const VOICE_IDS: u64 = u64::MAX;
pub const BUS_INPUTS: usize = 64;
pub const RECORDS: usize = 64;
pub const HOST_PORTS: usize = 64;

/// The limits of a definition.
pub const DEF_NODES: usize = 24;
pub const DEF_PORTS: usize = 8;
pub const DEF_EDGES: usize = 48;
pub const DEF_PARAMS: usize = 8;

/// Whether these bytes are a name.
pub fn is_name(bytes: &[u8]) -> bool {
    (1..=16).contains(&bytes.len())
}

/// The refusal `number` unless `holds`.
pub fn check(holds: bool, number: Refusal) -> Result<(), Refusal> {
    if holds { Ok(()) } else { Err(number) }
}

/// The sample rate as a whole number, or 1.
pub fn whole_rate(rate: f32) -> Result<u32, Refusal> {
    check((1.0..=384_000.0).contains(&rate) && rate.fract() == 0.0, 1)?;
    Ok(rate as u32)
}

/// Whether a lent block of `samples` samples is `channels` channels, 1 or 2, of `block` samples; else 16.
pub fn lent_block(channels: usize, block: usize, samples: usize) -> Result<(), Refusal> {
    check((1..=2).contains(&channels) && samples == channels * block, 16)
}
