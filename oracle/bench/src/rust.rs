//! The Rust's side of the scenes that are compared, by its public calls. Each does as the function of `scenes` of its name,
//! answers the same number, and says how many microseconds a round took.
//!
//! The Rust does more than the store: its prepare sizes every node's buffers and initialises new nodes, its render calls
//! every node and works out the gains of a fade, a steal reads the victim's block for its level. The nodes here
//! make no sound, and nothing is counted or locked in them.

use std::sync::LazyLock;

use microsynth::buffer::AudioBuffer;
use microsynth::context::{ProcessContext, Rate};
use microsynth::engine::{Engine, EngineConfig};
use microsynth::node::{InputSpec, NodeId, OutputSpec, UGen, UGenCategory, UGenSpec};
use microsynth::synthdef::{SynthDef, SynthDefBuilder};
use microsynth::voice::{StealPolicy, VoiceAllocator};
use scripted::graph::free_port;

use crate::scenes::add;
use crate::time::{lap, median, timed};

/// A node that makes no sound.
struct Still {
    name: &'static str,
    ports: usize,
}

static INPUTS: LazyLock<Vec<InputSpec>> =
    LazyLock::new(|| vec![InputSpec { name: "in", rate: Rate::Audio, required: false }; 64]);

static OUTPUTS: [OutputSpec; 1] = [OutputSpec { name: "out", rate: Rate::Audio }];

impl UGen for Still {
    fn spec(&self) -> UGenSpec {
        UGenSpec { name: self.name, category: UGenCategory::Utility, inputs: &INPUTS[..self.ports], outputs: &OUTPUTS }
    }

    fn init(&mut self, _context: &ProcessContext) {}

    fn reset(&mut self) {}

    fn process(&mut self, _context: &ProcessContext, _inputs: &[Option<&AudioBuffer>], _output: &mut AudioBuffer) {}
}

fn host_node(engine: &mut Engine, ports: usize) -> NodeId {
    engine.graph_mut().add_node(Box::new(Still { name: "Host", ports }))
}

/// An engine at 48 kHz with blocks of 128 samples, and a sink.
fn bus_engine(budget: usize, ports: usize) -> (Engine, NodeId) {
    let mut engine = Engine::new(EngineConfig { sample_rate: 48000.0, block_size: 128 });
    engine.set_voice_allocator(VoiceAllocator::new(budget, StealPolicy::Oldest));
    let bus = host_node(&mut engine, ports);
    engine.graph_mut().set_sink(bus);
    (engine, bus)
}

/// The edge `i` of 1,024 among 512 nodes.
fn put_edge(engine: &mut Engine, nodes: &[NodeId], i: usize) {
    let (from, step) = match i {
        0..511 => (i, 1),
        511..1021 => (i - 511, 2),
        _ => (i - 1021, 3),
    };
    engine.graph_mut().connect(nodes[from], nodes[from + step], step - 1);
}

/// The answers, and the processing order that is left.
fn with_order(sum: u32, engine: &Engine) -> u32 {
    let order = engine.graph().processing_order().iter();
    add(sum, order.fold(0, |sum, id| add(sum, id.index() as u32)))
}

pub fn prepare(rounds: u32) -> (u32, f64) {
    let (mut engine, sink) = bus_engine(64, 8);
    let mut nodes = vec![sink];
    nodes.extend((0..511).map(|_| host_node(&mut engine, 8)));
    for i in 0..1024 {
        put_edge(&mut engine, &nodes, i);
    }
    let (mut sum, mut times) = (0, Vec::new());
    for i in 0..rounds {
        put_edge(&mut engine, &nodes, i as usize % 1024);
        let ((), time) = lap(|| engine.prepare());
        times.push(time);
        sum = add(sum, 0);
    }
    (with_order(sum, &engine), median(times))
}

/// 8 nodes, each of which feeds the next.
fn chain_8() -> SynthDef {
    let mut def = SynthDefBuilder::new("chain");
    for _ in 0..8 {
        def.add_node(|| Box::new(Still { name: "OnePole", ports: 3 }));
    }
    for from in 0..7 {
        def.connect(from, from + 1, 0);
    }
    def.param("amp", 0, 0);
    def.set_output(7);
    def.build()
}

pub fn notes(rounds: u32) -> (u32, f64) {
    let (mut engine, bus) = bus_engine(32, 64);
    let def = chain_8();
    for _ in 0..32 {
        engine.spawn_voice_on_bus_managed(&def, bus);
    }
    let (sum, time) = timed(rounds, || {
        (0..rounds).fold(0, |sum, _| {
            let voice = engine.spawn_voice_on_bus_managed(&def, bus);
            engine.prepare();
            let sounding = engine.render().is_some();
            let removed = engine.free_done_synths();
            let id = voice.map_or(65536 + 12, |id| id.0 as u32 % 65536);
            add(add(add(sum, id), sounding.into()), removed as u32)
        })
    });
    (with_order(sum, &engine), time)
}

/// The port search of the Rust's spawn among 1,024 edges, the last ones at the `ports` ports of the bus.
pub fn ports(ports: usize, rounds: u32) -> (u32, f64) {
    let (mut engine, bus) = bus_engine(64, ports);
    let nodes: Vec<NodeId> = (0..60).map(|_| host_node(&mut engine, 64)).collect();
    let graph = engine.graph_mut();
    for i in 0..1024 - ports {
        graph.connect(nodes[0], nodes[1 + i / 64], i % 64);
    }
    for port in 0..ports {
        graph.connect(nodes[0], bus, port);
    }
    let graph = std::hint::black_box(engine.graph());
    timed(rounds, || (0..rounds).fold(0, |sum, _| add(sum, free_port(graph, bus).map_or(64, |p| p as u32))))
}
