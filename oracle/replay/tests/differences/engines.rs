//! Engines of the Rust for what no script can show, and definitions to be spawned in them.

use microsynth::engine::{Engine, EngineConfig};
use microsynth::node::{NodeId, UGen};
use replay::script::{self, Call, EdgeRow, NodeRow};
use scripted::definition::{Definition, Made};
use scripted::generator::{Generator, Handle, Kind, Log};

/// What the entries before the first making are played on.
pub fn plain() -> Engine {
    Engine::new(EngineConfig { sample_rate: 48_000.0, block_size: 64 })
}

pub fn generator(kind: &Kind) -> Box<dyn UGen> {
    Box::new(Generator::new(kind, Handle::default(), Log::default()))
}

/// Adds a bus of so many ports.
pub fn bus(engine: &mut Engine, ports: usize) -> NodeId {
    engine.graph_mut().add_node(generator(&Kind::plain("Bus", ports)))
}

/// A definition of nodes, each a kind and its ports, and edges from, to, port; the output is node 0.
pub fn rows(nodes: &[(&str, u8)], edges: &[(u8, u8, u8)]) -> script::Definition {
    let node = |&(kind, ports): &(&str, u8)| NodeRow {
        kind: kind.into(),
        ports,
        required: 0,
        takes: 0,
        channels: 1,
        input: 255,
        level: 255,
        amp: 255,
    };
    let edge = |&(from, to, port): &(u8, u8, u8)| EdgeRow { from, to, port };
    script::Definition {
        nodes: nodes.iter().map(node).collect(),
        edges: edges.iter().map(edge).collect(),
        params: vec![],
        output: 0,
    }
}

pub fn keep(nodes: &[(&str, u8)], edges: &[(u8, u8, u8)]) -> Call {
    Call::Keep { slot: 0, definition: rows(nodes, edges) }
}

/// Spawns a definition on a new bus of one port, and answers the generators of its nodes.
pub fn spawned(engine: &mut Engine, rows: &script::Definition) -> Vec<Handle> {
    let made = Made::default();
    let bus = bus(engine, 1);
    let voice = engine.spawn_voice_on_bus(&Definition::from(rows).build(&made, &Log::default()), bus);
    assert!(voice.is_some(), "the bus has a port");
    made.lock().expect("no holder of the list panics").clone()
}
