//! Departures 1 to 6, 11, 12 and 19: behaviour inside the limits, and calls that the store refuses.

use std::sync::Arc;
use std::sync::atomic::{AtomicUsize, Ordering};

use microsynth::buffer::AudioBuffer;
use microsynth::context::ProcessContext;
use microsynth::node::{NodeId, UGen, UGenSpec};
use microsynth::scheduler::VoiceId;
use microsynth::synthdef::SynthDefBuilder;
use microsynth::voice::{BudgetScope, StealPolicy};
use replay::script::Call;
use scripted::generator::Kind;

use crate::engines::{self, keep};
use crate::entries::{PREPARE, RENDER, SPAWN, free_at, host, made, tone};
use crate::rows::{Row, alone, compare, departs, same};

/// Budget 1 and `Oldest`: node 0 is a bus with one voice, which has node 2; node 1 has no ports, and node 3 is removed.
fn one_voice() -> Vec<Row> {
    vec![
        same(made(8000.0, 16, 1), "made"),
        same(host(1, 0), "node 0"),
        same(host(0, 0), "node 1"),
        same(keep(&[("Through", 1)], &[]), "kept"),
        same(SPAWN, "voice 1"),
        same(host(1, 0), "node 3"),
        same(Call::RemoveNode { node: 3 }, "done"),
    ]
}

/// The Rust steals voice 1 before it looks at the bus.
#[test]
fn departure_1_no_bus() {
    let cases = [
        ("01-unknown-bus", 7, "refused 4", "voice -"),
        ("01-dead-bus", 3, "refused 4", "voice -"),
        ("01-voices-node-as-bus", 2, "refused 5", "voice 2"),
        ("01-bus-without-ports", 1, "refused 10", "voice -"),
    ];
    for (name, bus, store, rust) in cases {
        let spawn = departs(Call::SpawnManaged { slot: 0, bus, rank: 0 }, store, rust);
        let steals = departs(Call::Steals {}, "steals 0", "steals 1 0 - faded");
        let engine = compare(name, one_voice().into_iter().chain([spawn, steals]));
        assert!(engine.voice_rows().next().is_some_and(|voice| voice.fade.is_some()), "voice 1 fades");
    }
}

#[test]
fn departure_2_cycle() {
    let rows = [
        same(host(0, 0), "node 0"),
        same(host(1, 0), "node 1"),
        same(Call::SetSink { node: 0 }, "done"),
        same(Call::Connect { from: 1, to: 1, port: 0 }, "done"),
        departs(PREPARE, "refused 14", "done"),
        departs(Call::Order {}, "order", "order 0"),
        departs(RENDER, "silent took 0", "sounding"),
        same(free_at(0, 9), "done"),
        departs(RENDER, "silent 14 took 1 01", "sounding"),
        same(Call::Clock {}, "clock 128"),
    ];
    compare("02-cycle", rows);
}

#[test]
fn departure_3_required_port() {
    let rows = [
        same(host(0, 0), "node 0"),
        same(PREPARE, "done"),
        same(host(1, 1), "node 1"),
        departs(PREPARE, "refused 13", "panics"),
        departs(Call::Order {}, "order 0", "order 0 1"),
        same(free_at(0, 9), "done"),
        departs(RENDER, "silent 13 took 1 01", "panics"),
        departs(Call::Clock {}, "clock 64", "clock 0"),
        // A cycle besides: 13 comes first.
        same(host(1, 0), "node 2"),
        same(Call::Connect { from: 2, to: 2, port: 0 }, "done"),
        departs(PREPARE, "refused 13", "panics"),
    ];
    compare("03-required-port", rows);
}

/// A generator that writes 1 and 7 to its channels, whose number can be changed while it lives.
struct Widened(Arc<AtomicUsize>);

impl UGen for Widened {
    fn spec(&self) -> UGenSpec {
        engines::generator(&Kind::plain("Widened", 0)).spec()
    }

    fn init(&mut self, _context: &ProcessContext) {}

    fn reset(&mut self) {}

    fn output_channels(&self, _input_channels: &[usize]) -> usize {
        self.0.load(Ordering::Relaxed)
    }

    fn process(&mut self, _context: &ProcessContext, _inputs: &[Option<&AudioBuffer>], output: &mut AudioBuffer) {
        for (channel, value) in (0..output.num_channels()).zip([1.0, 7.0]) {
            output.channel_mut(channel).fill(value);
        }
    }
}

#[test]
fn departure_4_channel_count() {
    let mut engine = engines::plain();
    let channels = Arc::new(AtomicUsize::new(2));
    let mut def = SynthDefBuilder::new("def");
    let shared = channels.clone();
    def.add_node(move || Box::new(Widened(shared.clone())));
    def.set_output(0);
    let bus = engines::bus(&mut engine, 1);
    engine.graph_mut().set_sink(bus);
    let voice = engine.spawn_voice_on_bus(&def.build(), bus).expect("the bus has a port");
    engine.prepare();
    assert!(engine.render().is_some());
    assert_eq!(engine.voice_level(voice), Some(5.0));
    channels.store(1, Ordering::Relaxed);
    engine.prepare();
    assert_eq!(engine.voice_level(voice), Some(1.0));
}

#[test]
fn departure_5_budget() {
    let rows = [
        same(made(8000.0, 16, 0), "made"),
        same(host(1, 0), "node 0"),
        same(tone(), "kept"),
        departs(SPAWN, "refused 11", "voice -"),
    ];
    let mut engine = compare("05-budget-of-nothing", rows);
    engine.set_voice_budget(0, StealPolicy::Oldest);
    assert!(engine.voice_allocator().is_none());
    engines::spawned(&mut engine, &engines::rows(&[("Tone", 0)], &[]));
    engine.set_voice_budget(1, StealPolicy::Oldest);
    let allocator = engine.voice_allocator().expect("there is a budget");
    assert_eq!(allocator.scope(), BudgetScope::PerGroup);
    // The voice that was let in without a budget counts from now on.
    assert_eq!(allocator.active_voices(), [VoiceId(1)]);
}

#[test]
fn departure_6_no_port() {
    let unmanaged = Call::Spawn { slot: 0, bus: 0, rank: 0 };
    let rejecting = Call::Make { rate: 8000.0, block: 16, budgeted: 1, budget: 1, policy: 0, scope: 0 };
    let rows = [
        same(rejecting, "made"),
        same(host(1, 0), "node 0"),
        same(tone(), "kept"),
        same(unmanaged.clone(), "voice 1"),
        departs(unmanaged, "refused 12", "voice -"),
        departs(SPAWN, "refused 12", "voice -"),
        departs(Call::Free { voice: 1 }, "outcome 0", "done"),
        same(SPAWN, "voice 2"),
        departs(SPAWN, "refused 11", "voice -"),
    ];
    compare("06-no-port", rows);
}

#[test]
fn departure_11_unknown_nodes() {
    let rows = [
        departs(Call::Disconnect { to: 9, port: 0 }, "refused 4", "done"),
        departs(Call::RemoveNode { node: 9 }, "refused 4", "done"),
        departs(Call::SetSink { node: 7 }, "refused 4", "done"),
        same(PREPARE, "done"),
        departs(RENDER, "silent took 0", "panics"),
        departs(Call::Connect { from: 7, to: 9, port: 0 }, "refused 4", "done"),
        departs(Call::Edges {}, "edges", "edges 7 9 0"),
        departs(PREPARE, "done", "panics"),
    ];
    compare("11-unknown-nodes", rows);
}

/// The Rust keeps the edge, and its table of sources leaves the dead node out.
#[test]
fn departure_11_dead_source() {
    let rows = [
        same(host(0, 0), "node 0"),
        same(host(1, 0), "node 1"),
        same(Call::RemoveNode { node: 0 }, "done"),
        departs(Call::Connect { from: 0, to: 1, port: 0 }, "refused 4", "done"),
        departs(Call::Edges {}, "edges", "edges 0 1 0"),
        same(PREPARE, "done"),
        same(Call::Order {}, "order 1"),
    ];
    let engine = compare("11-dead-source", rows);
    assert_eq!(engine.graph().resolved_sources(NodeId::numbered(1)), [None]);
}

#[test]
fn departure_11_missing_port() {
    let rows = [
        same(host(0, 0), "node 0"),
        same(host(1, 0), "node 1"),
        departs(Call::Connect { from: 0, to: 1, port: 1 }, "refused 6", "done"),
        departs(Call::Edges {}, "edges", "edges 0 1 1"),
        same(PREPARE, "done"),
        departs(Call::Disconnect { to: 1, port: 1 }, "refused 6", "done"),
    ];
    compare("11-missing-port", rows);
}

#[test]
fn departure_11_nodes_of_a_voice() {
    let rows = [
        same(host(1, 0), "node 0"),
        same(host(0, 0), "node 1"),
        same(keep(&[("Through", 1)], &[]), "kept"),
        same(SPAWN, "voice 1"),
        departs(Call::Connect { from: 1, to: 2, port: 0 }, "refused 5", "done"),
        departs(Call::Connect { from: 2, to: 0, port: 0 }, "refused 5", "done"),
        departs(Call::SetSink { node: 2 }, "refused 5", "done"),
        departs(Call::Edges {}, "edges 2 0 0", "edges 1 2 0 2 0 0"),
        departs(Call::Disconnect { to: 2, port: 0 }, "refused 5", "done"),
        departs(Call::RemoveNode { node: 2 }, "refused 5", "done"),
        departs(Call::Edges {}, "edges 2 0 0", "edges"),
        same(Call::Voices {}, "voices 1"),
    ];
    compare("11-nodes-of-a-voice", rows);
}

#[test]
fn departure_12_definition() {
    let rows = [
        same(host(2, 0), "node 0"),
        same(keep(&[("Add", 1), ("Tone", 0)], &[(1, 0, 0), (1, 0, 5)]), "kept"),
        departs(SPAWN, "refused 9", "voice 1"),
        same(PREPARE, "done"),
        departs(Call::Order {}, "order 0", "order 2 1 0"),
        same(keep(&[("Mul", 2)], &[(0, 0, 0)]), "kept"),
        departs(SPAWN, "refused 9", "voice 2"),
        same(PREPARE, "done"),
        departs(Call::Order {}, "order 0", "order 2 1"),
    ];
    compare("12-definition", rows);
}

/// Whether the Rust clears a voice of this definition whose node 1 is done.
fn is_cleared(nodes: &[(&str, u8)], edges: &[(u8, u8, u8)]) -> bool {
    let mut engine = engines::plain();
    let generators = engines::spawned(&mut engine, &engines::rows(nodes, edges));
    generators[1].state().done = true;
    engine.free_done_synths() == 1
}

#[test]
fn departure_12_plan() {
    let sum_of_two = [("Add", 2), ("Tone", 0)];
    assert!(is_cleared(&sum_of_two, &[(1, 0, 0), (1, 0, 1)]));
    // The closing edge counts as unconnected, and a sum with an unconnected port is not silent.
    assert!(!is_cleared(&sum_of_two, &[(1, 0, 0), (0, 0, 1)]));
    // The edge to a missing port is dropped.
    assert!(is_cleared(&[("Add", 1), ("Tone", 0)], &[(1, 0, 0), (0, 0, 5)]));
    assert!(!is_cleared(&[("Add", 1), ("Tone", 0)], &[(1, 0, 5)]));
}

/// Voice 1 has node 1, the constant 2, the pan 3 and the fade 4, which has ended.
#[test]
fn departure_19_own_nodes() {
    let state = "state\nclock 48\nprepared 1\nsink 0\nedges 1 3 0 2 3 1 3 4 0 4 0 0 5 0 1\norder 1 2 5 3 4 0\n\
        node 0 0 427573 2 0 0 0 00000000 - 2\nnode 1 1 546f6e65 0 0 1 0 00000000 - 0\n\
        node 2 1 436f6e7374 0 0 0 0 00000000 - 0\nnode 3 1 50616e32 2 1 0 0 00000000 - 0\n\
        node 4 1 537465616c46616465 1 1 0 0 00000000 - 0\nnode 5 2 546f6e65 0 0 1 0 00000000 - 0\n\
        voice 1 0 0 1 1 1 1 0 0 0 fading 4 0 48 0 0 00000000\nvoice 2 0 0 5 1 5 0 1 1 0 held 1 00000000\n\
        tracked 2\nsteals 1\nsteal 0 - faded\nnext 6 2\nend";
    let mut rows = vec![
        same(made(8000.0, 16, 1), "made"),
        same(host(2, 0), "node 0"),
        same(Call::SetSink { node: 0 }, "done"),
        same(tone(), "kept"),
        same(Call::SpawnManagedPanned { slot: 0, bus: 0, pan: 0.5, rank: 0 }, "voice 1"),
        same(SPAWN, "voice 2"),
        same(PREPARE, "done"),
    ];
    rows.extend([RENDER; 3].map(|render| departs(render, "sounding took 0", "sounding")));
    rows.push(alone(Call::State {}, state));
    let mut engine = compare("19-own-nodes", rows);
    let (constant, fade) = (NodeId::numbered(2), NodeId::numbered(4));
    assert_eq!(engine.node_level(constant), Some(0.5));
    assert!(engine.graph_mut().set_node_value(constant, 0.25));
    assert!(engine.graph().node_is_done(fade));
}
