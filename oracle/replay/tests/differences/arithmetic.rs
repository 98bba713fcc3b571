//! Departures 10, 14 to 18, 21 and the lent blocks of 7: the leaves, which no call reaches in this way. What the store's
//! functions answer is recorded as a vector (docs/VECTORS.md).

use std::panic::catch_unwind;

use microsynth::buffer::AudioBuffer;
use microsynth::context::ProcessContext;
use microsynth::node::UGen;
use microsynth::scheduler::VoiceId;
use microsynth::table;
use microsynth::IS_PUBLISHED;
use microsynth::ugens::{Bus, ChannelCount, MAX_BUS_INPUTS, StealFade};
use replay::script::{Call, Field, Samples};
use scripted::definition;
use scripted::generator::{Log, Order};

use crate::engines;
use crate::entries::{host, tone};
use crate::rows::{alone, ask, compare, same};

/// What a generator writes to a block of two samples, of one channel, when each of its inputs is this block.
fn output(generator: &mut dyn UGen, inputs: usize, block: &[f32]) -> Vec<f32> {
    let mut input = AudioBuffer::mono(block.len());
    input.channel_mut(0).samples_mut().copy_from_slice(block);
    let mut output = AudioBuffer::mono(2);
    generator.process(&ProcessContext::new(48_000.0, 2), &vec![Some(&input); inputs], &mut output);
    output.channel(0).samples().to_vec()
}

/// The fields of a vector.
fn fields(numbers: &[u32], samples: &[&[f32]]) -> Vec<u8> {
    let mut bytes = vec![];
    numbers.iter().for_each(|number| number.put(&mut bytes));
    samples.iter().for_each(|samples| Samples(samples.to_vec()).put(&mut bytes));
    bytes
}

/// The fields of a fade output: one channel, a block of two, the samples 3, 5, over 9, 9.
fn fade_output(position: u64, length: u32, gains: &[f32]) -> Vec<u8> {
    let mut bytes = fields(&[1, 1, 2], &[]);
    position.put(&mut bytes);
    bytes.extend(fields(&[length], &[gains, &[3.0, 5.0], &[9.0; 2]]));
    bytes
}

/// The Rust works the gains out, about 0.5 in the middle; the store takes those that it is lent.
#[test]
fn departure_10_gains() {
    let middle = output(&mut StealFade::new(2), 1, &[3.0, 5.0])[1];
    assert!((middle - 2.5).abs() < 1e-6);
    ask("10-lent-gains", 14, &fade_output(0, 2, &[1.0, 0.25]), "block 40400000 3fa00000");
    ask("10-too-few-gains", 14, &fade_output(0, 2, &[1.0]), "refused 16 41100000 41100000");
}

/// An input that is shorter than the block.
#[test]
fn departure_7_lent_block() {
    assert!(catch_unwind(|| output(&mut StealFade::new(2), 1, &[3.0])).is_err());
    assert!(catch_unwind(|| output(&mut Bus::new(ChannelCount::Mono), 1, &[3.0])).is_err());
    let short = fields(&[1, 2, 1, 1], &[&[3.0], &[9.0; 2]]);
    ask("07-lent-block", 15, &short, "refused 16 41100000 41100000");
}

/// A generator without channels has a block without samples.
#[test]
fn departure_14_level_of_no_samples() {
    let mut engine = engines::plain();
    let nodes = vec![definition::Node { channels: 0, ..definition::Node::new(b"Tone", vec![]) }];
    let def = definition::Definition { nodes, ..Default::default() };
    let bus = engines::bus(&mut engine, 1);
    engine.graph_mut().set_sink(bus);
    let voice = engine.spawn_voice_on_bus(&def.build(&Default::default(), &Log::default()), bus).expect("a port");
    engine.prepare();
    assert!(engine.render().is_some());
    assert_eq!(engine.voice_level(voice), None);
    ask("14-level-of-no-samples", 3, &fields(&[], &[&[]]), "7fc00000");
}

/// Of a NaN the transcript says `7fc00000`, whichever it is; the Rust passes on the pattern that it was given.
#[test]
fn departure_15_nan() {
    let value = f32::from_bits(0x7fc1_2345);
    let state = "state\nclock 0\nprepared 0\nsink -\nedges 1 0 0\norder\nnode 0 0 427573 1 0 0 0 00000000 - 1\n\
        node 1 1 546f6e65 0 0 1 0 00000000 value 7fc00000 0\nvoice 1 0 0 1 1 1 0 0 0 0 loose 0 -\ntracked\nsteals 0\n\
        next 2 1\nend";
    let rows = [
        same(host(1, 0), "node 0"),
        same(tone(), "kept"),
        same(Call::Spawn { slot: 0, bus: 0, rank: 0 }, "voice 1"),
        alone(Call::Value { voice: 1, name: b"freq".to_vec(), value }, "outcome 0"),
        alone(Call::State {}, state),
    ];
    compare("15-nan", rows);
    let mut engine = engines::plain();
    let Call::Keep { definition, .. } = tone() else { unreachable!("it is kept") };
    let generators = engines::spawned(&mut engine, &definition);
    assert!(engine.set_voice_param(VoiceId(1), "freq", value));
    let given = generators[0].state();
    assert!(matches!(given.orders[..], [Order::Value(given)] if given.to_bits() == 0x7fc1_2345));
}

/// In a build without overflow checks the sum wraps to 0, where the gain is 1.
#[test]
fn departure_16_end_of_a_fade() {
    let mut fade = StealFade::standing_at(1, u64::MAX);
    assert_eq!(output(&mut fade, 1, &[3.0, 5.0]), [0.0, 5.0]);
    assert_eq!(fade.position(), u64::MAX);
    ask("16-end-of-a-fade", 14, &fade_output(u64::MAX, 1, &[1.0]), "block 00000000 00000000");
}

#[test]
fn departure_17_fade_of_length_0() {
    assert_eq!(output(&mut StealFade::new(0), 1, &[3.0, 5.0]), [3.0, 0.0]);
    assert_eq!(output(&mut StealFade::new(1), 1, &[3.0, 5.0]), [3.0, 0.0]);
    ask("17-fade-of-length-0", 14, &fade_output(0, 0, &[]), "block 00000000 00000000");
}

#[test]
fn departure_18_bus_inputs() {
    let mut bus = Bus::new(ChannelCount::Mono);
    assert_eq!((bus.max_inputs(), MAX_BUS_INPUTS), (256, 256));
    assert_eq!(output(&mut bus, 65, &[1.0, 2.0]), [65.0, 130.0]);
    let numbers = [&[1, 1, 65], &[1; 65][..]].concat();
    ask("18-bus-inputs", 15, &fields(&numbers, &[&[1.0; 65], &[9.0]]), "refused 16 41100000");
}

/// With the fade table, samples 1 and 2 of a fade at 48,000 Hz: the Rust as published has another last digit in both. No gain is
/// lent to the store.
#[test]
fn departure_21_fade_table() {
    table::choose(true);
    let heard = output(&mut StealFade::standing_at(240, 1), 1, &[3.0, 5.0]).into_iter().map(f32::to_bits);
    table::choose(false);
    let expected = if IS_PUBLISHED { [0x403f_fde6, 0x409f_f8fc] } else { [0x403f_fde5, 0x409f_f8fb] };
    assert!(heard.eq(expected));
    ask("21-fade-table", 17, &fade_output(1, 48_000, &[]), "block 403ffde5 409ff8fb");
}
