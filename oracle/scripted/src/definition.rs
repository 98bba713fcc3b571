//! A definition as the host gives it to the store, and the same as the Rust's `SynthDef`.

use std::sync::{Arc, Mutex};

use microsynth::engine::{Engine, EngineConfig};
use microsynth::synthdef::{Synth, SynthDef, SynthDefBuilder};

use crate::generator::{Generator, Handle, Kind, Log, Port};
use crate::limits::{self, Refusal, check};
use crate::name;

/// The names of ports that the host looks up for the store.
pub const LOOKED_UP: [&str; 3] = ["in", "level", "amp"];

#[derive(Clone)]
pub struct Node {
    pub kind: Vec<u8>,
    /// The name of each port.
    pub ports: Vec<String>,
    /// Bit p: port p is required.
    pub required: u32,
    pub takes_values: bool,
    pub takes_glides: bool,
    pub channels: usize,
    /// The first port of each name of `LOOKED_UP`, as the host says.
    pub named: [Option<usize>; 3],
}

impl Node {
    /// A node that requires no port, takes no order, has one channel, and whose host looks its ports up rightly.
    pub fn new(kind: &[u8], ports: Vec<String>) -> Node {
        Node {
            kind: kind.to_vec(),
            required: 0,
            takes_values: false,
            takes_glides: false,
            channels: 1,
            named: LOOKED_UP.map(|name| ports.iter().position(|port| port == name)),
            ports,
        }
    }

    fn generator(&self) -> Kind {
        let port = |(p, name): (usize, &String)| Port { name: name.clone(), required: self.required >> p & 1 == 1 };
        Kind {
            name: name::text(&self.kind),
            ports: self.ports.iter().enumerate().map(port).collect(),
            channels: self.channels,
            takes_values: self.takes_values,
            takes_glides: self.takes_glides,
        }
    }

    fn within_limits(&self) -> bool {
        let ports = self.ports.len();
        limits::is_name(&self.kind)
            && ports <= limits::DEF_PORTS
            && self.required >> ports == 0
            && self.named.iter().flatten().all(|&p| p < ports)
    }
}

#[derive(Clone, Copy)]
pub struct Edge {
    pub from: usize,
    pub to: usize,
    pub port: usize,
}

#[derive(Clone)]
pub struct Param {
    pub name: Vec<u8>,
    pub node: usize,
}

#[derive(Clone, Default)]
pub struct Definition {
    pub nodes: Vec<Node>,
    pub edges: Vec<Edge>,
    pub params: Vec<Param>,
    pub output: usize,
}

/// The generators that a definition has made, in order.
pub type Made = Arc<Mutex<Vec<Handle>>>;

impl Definition {
    /// A new engine with one instance of the definition, whose nodes then have the ids from 0 on; or 9 if the definition
    /// is outside the limits. For a cycle of its counted edges, that the Rust's order leaves a node out.
    pub fn instance(&self) -> Result<(Engine, Synth), Refusal> {
        self.within_limits()?;
        let mut engine = Engine::new(EngineConfig::default());
        let synth = engine.instantiate_synthdef(&self.build(&Made::default(), &Log::default()));
        let order = engine.graph_mut().trial_order();
        check(order.len() == self.nodes.len(), 9)?;
        Ok((engine, synth))
    }

    /// 9 if the definition is outside the limits, but for a cycle of its counted edges, which only its graph shows.
    fn within_limits(&self) -> Result<(), Refusal> {
        let nodes = self.nodes.len();
        let has_port = |e: &Edge| e.from < nodes && self.nodes.get(e.to).is_some_and(|n| e.port < n.ports.len());
        let has_param = |p: &Param| limits::is_name(&p.name) && p.node < nodes;
        let counts = (1..=limits::DEF_NODES).contains(&nodes)
            && self.edges.len() <= limits::DEF_EDGES
            && self.params.len() <= limits::DEF_PARAMS;
        let named = self.nodes.iter().all(Node::within_limits)
            && self.edges.iter().all(has_port)
            && self.params.iter().all(has_param);
        check(counts && named && self.output < nodes, 9)
    }

    /// The Rust's form of a definition whose numbers are in range. Each generator that it makes is appended to `made`.
    pub fn build(&self, made: &Made, log: &Log) -> SynthDef {
        let mut def = SynthDefBuilder::new("def");
        for node in &self.nodes {
            let (kind, made, log) = (node.generator(), made.clone(), log.clone());
            def.add_node(move || {
                let handle = Handle::default();
                made.lock().expect("no holder of the list panics").push(handle.clone());
                Box::new(Generator::new(&kind, handle, log.clone()))
            });
        }
        for edge in &self.edges {
            def.connect(edge.from, edge.to, edge.port);
        }
        for param in &self.params {
            def.param(name::text(&param.name), param.node, 0);
        }
        def.set_output(self.output);
        def.build()
    }
}
