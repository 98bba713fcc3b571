//! Vectors for the bus: sample rates, fade lengths, noise seeds, fade output and bus sums.

use microsynth::buffer::AudioBuffer;
use microsynth::context::ProcessContext;
use microsynth::engine::{Engine, EngineConfig, noise_seed};
use microsynth::node::UGen;
use microsynth::table;
use microsynth::ugens::{Bus, ChannelCount, StealFade, steal_fade_samples};
use scripted::definition::{Definition, Made, Node};
use scripted::generator::Log;
use scripted::limits::{self, Refusal, check};
use scripted::words::hex32;
use seeded::floats::{self, Profile};
use seeded::rng::Rng;

use crate::book::{Book, Vector};

const RATE: u8 = 11;
const FADE_LENGTHS: u8 = 12;
const SEED: u8 = 13;
const FADE: u8 = 14;
const SUM: u8 = 15;
/// The same as calls of a store, which takes its fade length from the rate and may have chosen the fade table.
const STORE_FADE: u8 = 16;
const TABLE_FADE: u8 = 17;
const STORE_SUM: u8 = 18;

const HIGHEST_RATE: usize = 384_000;

pub fn book(rng: &mut Rng, amount: usize) -> Book {
    let mut book = Book::default();
    book.put("fade lengths", HIGHEST_RATE, fade_lengths());
    for edge in EDGE_RATES {
        book.put("sample rates", 1, rate(edge));
    }
    for (sequence, node) in [(0, 0), (0, 1), (1, 0)] {
        book.put("seeds", 1, seed(sequence, node));
    }
    for turn in 0..amount {
        book.put("sample rates", 1, rate(any_rate(rng)));
        let (sequence, node) = (counter(rng), any_node(rng));
        book.put("seeds", 1, seed(sequence, node));
        book.put("fade blocks", 1, fade(rng, FADE));
        book.put("bus sums", 1, sum(rng, SUM));
        match turn % 3 {
            0 => book.put("fade blocks of a store", 1, fade(rng, STORE_FADE)),
            1 => book.put("fade blocks with the fade table", 1, fade(rng, TABLE_FADE)),
            _ => book.put("bus sums of a store", 1, sum(rng, STORE_SUM)),
        }
    }
    book
}

/// Every rate: a line for the first and for each at which the length is another than at the rate below.
fn fade_lengths() -> Vector {
    let mut vector = Vector::new(FADE_LENGTHS);
    vector.u32(1);
    vector.u32(HIGHEST_RATE + 1);
    let mut last = None;
    for rate in 1..=HIGHEST_RATE {
        let length = steal_fade_samples(rate as f32);
        if last != Some(length) {
            vector.line(format_args!("{rate} {length}"));
        }
        last = Some(length);
    }
    vector
}

/// Rates at the edges of what is whole and within the limits.
const EDGE_RATES: [f32; 17] = [
    0.0,
    -0.0,
    -1.0,
    f32::MIN_POSITIVE,
    0.5,
    1.0,
    1.5,
    2.0,
    44100.5,
    383_999.97,
    384_000.0,
    384_000.03,
    384_001.0,
    16_777_216.0,
    f32::INFINITY,
    f32::NEG_INFINITY,
    f32::NAN,
];

fn any_rate(rng: &mut Rng) -> f32 {
    let whole = rng.within(0, HIGHEST_RATE + 1) as f32;
    match rng.below(5) {
        0 => whole,
        1 => -whole,
        2 => whole + rng.below(16) as f32 / 16.0,
        3 => f32::from_bits(whole.to_bits().wrapping_add(rng.below(3) as u32).wrapping_sub(1)),
        _ => floats::block(rng, 1)[0],
    }
}

fn rate(rate: f32) -> Vector {
    let mut vector = Vector::new(RATE);
    vector.f32(rate);
    match limits::whole_rate(rate) {
        Ok(whole) => vector.line(format_args!("rate {whole}")),
        Err(number) => vector.line(format_args!("refused {number}")),
    }
    vector
}

/// A number whose high bits matter as much as its low ones.
fn counter(rng: &mut Rng) -> u32 {
    match rng.below(3) {
        0 => rng.below(64) as u32,
        1 => u32::MAX - rng.below(64) as u32,
        _ => rng.word(),
    }
}

fn any_node(rng: &mut Rng) -> usize {
    match rng.below(4) {
        0 => counter(rng) as usize,
        1 => rng.bits() as usize,
        _ => rng.below(limits::DEF_NODES),
    }
}

fn seed(sequence: u32, node: usize) -> Vector {
    let given = noise_seed(sequence, node);
    if node < limits::DEF_NODES {
        assert_eq!(given, seed_heard(sequence, node));
    }
    let mut vector = Vector::new(SEED);
    vector.u32(sequence as usize);
    vector.u64(node as u64);
    vector.line(format_args!("{given:08x}"));
    vector
}

/// The seed that a generator hears which is the last node of a voice made at that sequence.
fn seed_heard(sequence: u32, node: usize) -> u32 {
    let (made, kind) = (Made::default(), Node::new(b"Noise", vec![]));
    let def = Definition { nodes: vec![kind; node + 1], ..Definition::default() };
    let mut engine = Engine::new(EngineConfig::default());
    engine.set_noise_sequence(sequence);
    engine.spawn_voice(&def.build(&made, &Log::default()));
    let handles = made.lock().expect("no holder of the list panics");
    let seeds = &handles[node].state().seeds;
    seeds[0]
}

/// The Rust's form of a lent block: channel 0 whole, then channel 1.
fn buffer(channels: usize, block: usize, samples: &[f32]) -> AudioBuffer {
    let mut buffer = AudioBuffer::new(channels, block);
    let mut samples = samples.iter();
    for channel in 0..channels {
        for place in buffer.channel_mut(channel).samples_mut() {
            *place = *samples.next().expect("the block is whole");
        }
    }
    buffer
}

/// Has a unit of the Rust write a block over `before`, and gives the samples that it left.
fn written(
    unit: &mut dyn UGen,
    inputs: &[Option<&AudioBuffer>],
    channels: usize,
    block: usize,
    before: &[f32],
) -> Vec<f32> {
    let mut output = buffer(channels, block, before);
    unit.process(&ProcessContext::new(8000.0, block), inputs, &mut output);
    (0..channels).flat_map(|c| output.channel(c).samples().to_vec()).collect()
}

/// The line for a block that was written, or that was refused and is as before.
fn answer(vector: &mut Vector, result: Result<Vec<f32>, Refusal>, before: &[f32]) {
    match result {
        Ok(samples) => vector.row("block", samples.into_iter().map(hex32)),
        Err(number) => vector.row(&format!("refused {number}"), before.iter().copied().map(hex32)),
    }
}

/// A block size: mostly small, sometimes the store's largest, sometimes none.
fn block_size(rng: &mut Rng) -> usize {
    match rng.below(24) {
        0 => 128,
        1 => 0,
        2 => rng.within(17, 127),
        _ => rng.within(1, 16),
    }
}

/// A channel count: 1 or 2, but for one in twenty.
fn channels(rng: &mut Rng) -> usize {
    if rng.once_in(20) { *rng.pick(&[0, 3, 4]) } else { rng.within(1, 2) }
}

/// As many samples as the block has, but for one in twenty.
fn block_samples(rng: &mut Rng, profile: Profile, whole: usize) -> Vec<f32> {
    let count = match rng.below(40) {
        0 => whole + 1,
        1 => whole.saturating_sub(1),
        _ => whole,
    };
    profile.samples(rng, count)
}

/// Rates whose fades have 1, 2, 5, 16, 40, 80, 221 and 240 samples.
const FADE_RATES: [f32; 9] = [200.0, 300.0, 1000.0, 3200.0, 3200.0, 8000.0, 16_000.0, 44_100.0, 48_000.0];

/// The gains of the Rust, one too few or some too many now and then.
fn lent_gains(rng: &mut Rng, length: usize) -> Vec<f32> {
    let lent = match rng.below(12) {
        0 => length - 1,
        1 => length + rng.within(1, 3),
        _ => length,
    };
    (0..lent).map(|k| StealFade::new(length).gain(k)).collect()
}

/// Gains that do not count: any samples, often too few of them, or none.
fn unused_gains(rng: &mut Rng, length: usize) -> Vec<f32> {
    let lent = match rng.below(4) {
        0 => 0,
        1 => rng.below(length),
        2 => length - 1,
        _ => length + rng.below(4),
    };
    Profile::Any.samples(rng, lent)
}

fn fade(rng: &mut Rng, sort: u8) -> Vector {
    let (from, to, block) = (channels(rng), channels(rng), block_size(rng));
    let has_table = sort == TABLE_FADE;
    let rate = if has_table { table::RATE } else { *rng.pick(&FADE_RATES) };
    let length = steal_fade_samples(rate);
    let position = match rng.below(5) {
        0 => rng.below(3 * length + 1) as u64,
        1 => (length as u64 + 2).saturating_sub(rng.below(4) as u64),
        2 => u64::MAX - rng.below(200) as u64,
        _ => rng.below(length) as u64,
    };
    let gains = if has_table { unused_gains(rng, length) } else { lent_gains(rng, length) };
    let profile = *rng.pick(&floats::PROFILES);
    let input = block_samples(rng, profile, from * block);
    let before = block_samples(rng, Profile::Any, to * block);

    let mut vector = Vector::new(sort);
    vector.u32(from);
    vector.u32(to);
    vector.u32(block);
    vector.u64(position);
    vector.u32(if sort == FADE { length } else { rate as usize });
    vector.samples(&gains);
    vector.samples(&input);
    vector.samples(&before);

    let result = limits::lent_block(from, block, input.len())
        .and(limits::lent_block(to, block, before.len()))
        .and(check(has_table || gains.len() >= length, 16))
        .map(|()| {
            // The Rust's position would pass its largest number; from the length on every gain is the same.
            let reached = if position > u64::MAX - block as u64 { length as u64 } else { position };
            let mut unit = StealFade::standing_at(length, reached);
            table::choose(has_table);
            let samples = written(&mut unit, &[Some(&buffer(from, block, &input))], to, block, &before);
            table::choose(false);
            samples
        });
    answer(&mut vector, result, &before);
    vector
}

fn sum(rng: &mut Rng, sort: u8) -> Vector {
    let count = match rng.below(16) {
        0 => 0,
        1 => *rng.pick(&[63, 64, 65]),
        _ => rng.within(1, 8),
    };
    let block = if count > 8 { rng.within(1, 3) } else { block_size(rng) };
    let to = channels(rng);
    let mut from: Vec<usize> = (0..count).map(|_| rng.within(1, 2)).collect();
    if rng.once_in(20) && count > 0 {
        let place = rng.below(count);
        from[place] = *rng.pick(&[0, 3]);
    }
    let profile = *rng.pick(&floats::PROFILES);
    let input = block_samples(rng, profile, from.iter().sum::<usize>() * block);
    let before = block_samples(rng, Profile::Any, to * block);

    let mut vector = Vector::new(sort);
    vector.u32(to);
    vector.u32(block);
    vector.u32(count);
    for &channels in &from {
        vector.u32(channels);
    }
    vector.samples(&input);
    vector.samples(&before);

    let result = check(count <= limits::BUS_INPUTS && from.iter().all(|c| (1..=2).contains(c)), 16)
        .and(check(input.len() == from.iter().sum::<usize>() * block, 16))
        .and(limits::lent_block(to, block, before.len()))
        .map(|()| summed(rng, &from, &input, to, block, &before));
    answer(&mut vector, result, &before);
    vector
}

/// The Rust's sum. The inputs stand at ports of the bus in rising order, with unconnected ports between them.
fn summed(rng: &mut Rng, from: &[usize], input: &[f32], to: usize, block: usize, before: &[f32]) -> Vec<f32> {
    let mut rest = input;
    let mut blocks = Vec::new();
    for &channels in from {
        let (first, later) = rest.split_at(channels * block);
        blocks.push(buffer(channels, block, first));
        rest = later;
    }
    let mut ports = Vec::new();
    for block in &blocks {
        ports.extend((0..rng.below(3)).map(|_| None));
        ports.push(Some(block));
    }
    written(&mut Bus::new(ChannelCount::Custom(to)), &ports, to, block, before)
}
