//! Vectors for the graph: scripts of calls, with the answer of each and the state at the end.

use std::collections::HashMap;

use microsynth::context::ProcessContext;
use microsynth::graph::AudioGraph;
use microsynth::node::NodeId;
use scripted::generator::{Generator, Handle, Kind, Log};
use scripted::graph as host;
use scripted::limits::{self, Refusal};
use scripted::words::or_dash;
use seeded::rng::Rng;

use crate::book::{Book, Vector};

const SCRIPT: u8 = 21;

const ADD: u8 = 1;
const REMOVE: u8 = 2;
const CONNECT: u8 = 3;
const DISCONNECT: u8 = 4;
const SINK: u8 = 5;
const PREPARE: u8 = 6;
const FREE_PORT: u8 = 7;
const FED_PORT: u8 = 8;
const SOURCES: u8 = 9;
const STATE: u8 = 10;
const ADD_OWNED: u8 = 11;
const PUT: u8 = 12;
const REMOVE_VOICE: u8 = 13;
const APPEND: u8 = 14;

pub fn book(rng: &mut Rng, amount: usize) -> Book {
    let mut book = Book::default();
    book.put("graph scripts", 1, of_the_dead());
    for ports in [0, 1, 63, 64, 65] {
        book.put("graph scripts", 1, filled(ports));
        book.put("graph scripts", 1, gapped(ports));
    }
    for n in 0..amount {
        let script = match n % 100 {
            0 => full(rng, n % 200 == 0),
            1..10 => crowded(rng),
            10..40 => dense(rng),
            _ => mixed(rng),
        };
        book.put("graph scripts", 1, script);
    }
    book
}

/// A script in the making: each call is written, made on the Rust, and its answer written.
struct Script {
    calls: usize,
    vector: Vector,
    graph: AudioGraph,
    /// The voice of each node that is not the host's.
    owners: HashMap<NodeId, u64>,
    log: Log,
    given: u32,
    /// Whether an edge was put to or from a dead node.
    dangling: bool,
}

impl Script {
    fn new() -> Script {
        Script {
            calls: 0,
            vector: Vector::default(),
            graph: AudioGraph::new(),
            owners: HashMap::new(),
            log: Log::default(),
            given: 0,
            dangling: false,
        }
    }

    fn finish(mut self) -> Vector {
        self.state();
        let mut vector = Vector::new(SCRIPT);
        vector.u32(self.calls);
        vector.append(self.vector);
        vector
    }

    fn call(&mut self, sort: u8, ids: &[u32]) {
        self.calls += 1;
        self.vector.u8(sort);
        for &id in ids {
            self.vector.u32(id as usize);
        }
    }

    fn answer(&mut self, result: Result<String, Refusal>) {
        match result {
            Ok(words) => self.vector.line(words),
            Err(number) => self.vector.line(format_args!("refused {number}")),
        }
    }

    /// The fields of a new node.
    fn node(&mut self, name: &[u8], ports: usize, required: u64) {
        self.vector.name(name);
        self.vector.u32(ports);
        self.vector.u64(required);
        self.vector.u8(0);
    }

    /// Adds the node to the Rust's graph; its mark is its id.
    fn place(&mut self, name: &[u8], ports: usize, required: u64) -> NodeId {
        let mut kind = Kind::plain(&String::from_utf8_lossy(name), ports);
        for (p, port) in kind.ports.iter_mut().enumerate() {
            port.required = p < 64 && required >> p & 1 == 1;
        }
        let handle = Handle::default();
        handle.state().mark = self.given;
        self.given += 1;
        self.graph.add_node(Box::new(Generator::new(&kind, handle, self.log.clone())))
    }

    fn add(&mut self, name: &[u8], ports: usize, required: u64) {
        self.call(ADD, &[]);
        self.node(name, ports, required);
        let refused = host::host_add(&self.graph, name, ports, required);
        let result = refused.map(|()| format!("node {}", self.place(name, ports, required).index()));
        self.answer(result);
    }

    /// Adds a node of a voice.
    fn add_owned(&mut self, voice: u64, ports: usize) -> u32 {
        self.call(ADD_OWNED, &[]);
        self.vector.u64(voice);
        self.vector.u32(ports);
        let id = self.place(b"Tone", ports, 0);
        self.owners.insert(id, voice);
        self.vector.line(format_args!("node {}", id.index()));
        id.index() as u32
    }

    /// Puts an edge between nodes that may be a voice's, or dead.
    fn put(&mut self, from: u32, to: u32, port: u32) {
        self.call(PUT, &[from, to, port]);
        let (from, to) = (NodeId::numbered(from), NodeId::numbered(to));
        self.dangling |= [from, to].iter().any(|&id| self.graph.node_spec(id).is_none());
        self.graph.connect(from, to, port as usize);
        self.vector.line("done");
    }

    /// Appends an edge, whatever else feeds its port.
    fn append(&mut self, from: u32, to: u32, port: u32) {
        self.call(APPEND, &[from, to, port]);
        self.graph.append_edge(NodeId::numbered(from), NodeId::numbered(to), port as usize);
        self.vector.line("done");
    }

    /// A bus of so many ports, and two nodes that can feed it, each of a voice of its own. A host's node has 64 ports at most.
    fn add_bus(&mut self, ports: usize) -> (u32, u32, u32) {
        let bus = self.given;
        if ports <= limits::HOST_PORTS {
            self.add(b"Bus", ports, 0);
        } else {
            self.add_owned(1, ports);
        }
        (bus, self.add_owned(2, 1), self.add_owned(3, 1))
    }

    /// Adds a run of a voice's nodes, each fed by the one before it; the last feeds a node of the host, if that lives.
    fn add_voice(&mut self, voice: u64, count: usize, bus: u32) {
        let mut last = None;
        for _ in 0..count {
            let id = self.add_owned(voice, 2);
            if let Some(last) = last {
                self.put(last, id, 1);
            }
            last = Some(id);
        }
        let free = host::free_port(&self.graph, NodeId::numbered(bus));
        if let (Some(last), Some(port)) = (last, free) {
            self.put(last, bus, port as u32);
        }
    }

    /// Removes the nodes of a voice that has some.
    fn remove_voice(&mut self, voice: u64) {
        let mut nodes = self.graph.live_nodes();
        nodes.retain(|id| self.owners.get(id) == Some(&voice));
        if nodes.is_empty() {
            return;
        }
        self.call(REMOVE_VOICE, &[]);
        self.vector.u64(voice);
        for id in nodes {
            self.graph.remove_node(id);
        }
        self.vector.line("done");
    }

    fn hosts(&self, ids: &[u32]) -> Result<(), Refusal> {
        let ids: Vec<NodeId> = ids.iter().map(|&id| NodeId::numbered(id)).collect();
        host::host_nodes(&self.graph, |id| self.owners.contains_key(&id), &ids)
    }

    /// Makes a call that has no answer but that it was done.
    fn done(&mut self, allowed: Result<(), Refusal>, act: impl FnOnce(&mut AudioGraph)) {
        let result = allowed.map(|()| act(&mut self.graph));
        self.answer(result.map(|()| "done".to_string()));
    }

    fn remove(&mut self, id: u32) {
        self.call(REMOVE, &[id]);
        self.done(self.hosts(&[id]), |g| g.remove_node(NodeId::numbered(id)));
    }

    fn connect(&mut self, from: u32, to: u32, port: u32) {
        self.call(CONNECT, &[from, to, port]);
        let (target, slot) = (NodeId::numbered(to), port as usize);
        let allowed = self
            .hosts(&[from, to])
            .and_then(|()| host::port_of(&self.graph, target, slot))
            .and_then(|()| host::edge_place(&self.graph, target, slot));
        self.done(allowed, |g| g.connect(NodeId::numbered(from), target, slot));
    }

    fn disconnect(&mut self, to: u32, port: u32) {
        self.call(DISCONNECT, &[to, port]);
        let (target, slot) = (NodeId::numbered(to), port as usize);
        let allowed = self.hosts(&[to]).and_then(|()| host::port_of(&self.graph, target, slot));
        self.done(allowed, |g| g.disconnect(target, slot));
    }

    fn sink(&mut self, id: u32) {
        self.call(SINK, &[id]);
        self.done(self.hosts(&[id]), |g| g.set_sink(NodeId::numbered(id)));
    }

    /// Prepares; where there is a sink, the generators' log of a render has to show the same order.
    fn prepare(&mut self) {
        self.call(PREPARE, &[]);
        let trial = host::trial(&mut self.graph);
        if let Ok(order) = &trial {
            let context = ProcessContext::new(8000.0, 1);
            self.graph.prepare(&context);
            if self.graph.render(&context).is_some() {
                assert!(order.iter().map(|id| id.index() as u32).eq(self.log.take()));
            }
        }
        let words = |order: Vec<NodeId>| {
            let ids: Vec<String> = order.iter().map(|id| format!(" {}", id.index())).collect();
            format!("order{}", ids.concat())
        };
        self.answer(trial.map(words));
    }

    fn free_port(&mut self, id: u32) {
        self.call(FREE_PORT, &[id]);
        let port = host::free_port(&self.graph, NodeId::numbered(id));
        self.vector.line(format_args!("port {}", or_dash(port)));
    }

    fn fed_port(&mut self, from: u32, to: u32) {
        self.call(FED_PORT, &[from, to]);
        let port = self.graph.input_slot_from(NodeId::numbered(from), NodeId::numbered(to));
        self.vector.line(format_args!("port {}", or_dash(port)));
    }

    /// The sources of a node, which the Rust resolves at a prepare and leaves out where they are dead: asked only of a
    /// prepared graph in which no edge was put to or from a dead node.
    fn sources(&mut self, id: u32) {
        if self.graph.is_dirty() || self.dangling {
            return;
        }
        self.call(SOURCES, &[id]);
        let sources = self.graph.resolved_sources(NodeId::numbered(id));
        let ids: Vec<String> = sources.iter().map(|s| or_dash(s.map(|s| s.index()))).collect();
        self.vector.row("sources", ids);
    }

    fn state(&mut self) {
        self.call(STATE, &[]);
        let graph = &self.graph;
        let prepared = if graph.is_dirty() { "no" } else { "yes" };
        self.vector.line(format_args!("sink {}", or_dash(graph.sink_node().map(|id| id.index()))));
        self.vector.line(format_args!("prepared {prepared}"));
        self.vector.row("nodes", graph.live_nodes().iter().map(|id| id.index()));
        let edges = graph.all_edges().iter();
        self.vector.row("edges", edges.flat_map(|e| [e.from.index(), e.to.index(), e.to_input]));
        self.vector.row("order", graph.processing_order().iter().map(|id| id.index()));
    }

    /// An id: one that was given out, mostly, dead or live; or one that was not.
    fn any_id(&self, rng: &mut Rng) -> u32 {
        match rng.below(40) {
            0 => self.given + rng.below(2) as u32,
            1 => u32::MAX,
            _ => rng.below(self.given.max(1) as usize) as u32,
        }
    }
}

/// Edges to and from a dead node, which feed nothing and order nothing.
fn of_the_dead() -> Vector {
    let mut script = Script::new();
    script.add(b"Tone", 1, 0);
    script.add(b"Node", 2, 1);
    script.add(b"Node", 2, 0);
    script.remove(0);
    script.put(0, 1, 0);
    script.prepare();
    script.put(2, 1, 0);
    script.put(0, 2, 0);
    script.put(1, 0, 0);
    script.prepare();
    script.finish()
}

/// The search for a free port of a bus of so many ports, which are taken from the lowest on, by two edges each, while an edge stands at
/// port 200 and others lead to another node; then one voice's edges are removed, and then the other's.
fn filled(ports: usize) -> Vector {
    let mut script = Script::new();
    let (bus, one, two) = script.add_bus(ports);
    script.free_port(bus);
    script.put(one, bus, 200);
    script.free_port(bus);
    for port in 0..ports as u32 {
        script.append(bus, two, port);
        script.put(one, bus, port);
        script.append(two, bus, port);
        script.free_port(bus);
    }
    script.fed_port(one, bus);
    script.fed_port(two, bus);
    script.remove_voice(2);
    script.free_port(bus);
    script.remove_voice(3);
    script.free_port(bus);
    script.finish()
}

/// The same search where the ports are taken from the highest on, and one in the middle is left out; it is taken at last.
fn gapped(ports: usize) -> Vector {
    let mut script = Script::new();
    let (bus, one, two) = script.add_bus(ports);
    let left = ports as u32 / 2;
    for port in (0..ports as u32).rev().filter(|&port| port != left) {
        script.append(two, bus, port);
        script.append(one, bus, port);
    }
    script.free_port(bus);
    script.append(one, bus, 200);
    script.append(two, bus, 200);
    script.free_port(bus);
    script.fed_port(two, bus);
    script.append(one, bus, left);
    script.free_port(bus);
    script.put(two, bus, left);
    script.free_port(bus);
    script.finish()
}

/// A few nodes and many calls of every kind.
fn mixed(rng: &mut Rng) -> Vector {
    let mut script = Script::new();
    for _ in 0..rng.within(2, 8) {
        script.add(b"Node", rng.within(0, 4), 0);
    }
    for _ in 0..rng.within(8, 40) {
        let (a, b) = (script.any_id(rng), script.any_id(rng));
        // Mostly from the lower to the higher id, so that cycles are not the rule.
        let (from, to) = if rng.once_in(8) { (a, b) } else { (a.min(b), a.max(b)) };
        match rng.below(24) {
            0 => {
                let length = *rng.pick(&[0, 1, 15, 16, 17, 200]);
                script.add(&vec![b'n'; length], rng.below(4), 0);
            }
            1 => script.add(b"Node", *rng.pick(&[0, 1, 63, 64, 65, 1000]), 0),
            2 => script.add(b"Node", rng.within(0, 3), rng.word() as u64 & 0xf),
            3 => script.remove(a),
            4 => script.disconnect(to, rng.below(5) as u32),
            5 => script.sink(a),
            6 | 7 => script.prepare(),
            8 => script.free_port(a),
            9 => script.fed_port(from, to),
            10 => script.sources(a),
            11 => script.add_voice(rng.within(1, 3) as u64, rng.within(1, 4), a),
            12 => script.remove_voice(rng.within(1, 3) as u64),
            13 => script.state(),
            14 if from < script.given && to < script.given => script.put(from, to, rng.below(4) as u32),
            _ => script.connect(from, to, rng.below(4) as u32),
        }
    }
    script.prepare();
    script.finish()
}

/// Nodes that are joined by many edges, often two of one source to one target, in an order that is not the ids'.
fn joined(rng: &mut Rng, script: &mut Script, nodes: usize, edges: usize, ports: usize) {
    for _ in 0..nodes {
        script.add(b"Node", ports, 0);
    }
    let mut order: Vec<u32> = (0..nodes as u32).collect();
    rng.shuffle(&mut order);
    let mut last = (0, 1);
    for _ in 0..edges {
        let (a, b) = (rng.below(nodes), rng.below(nodes));
        if a != b && !rng.once_in(5) {
            last = (a.min(b), a.max(b));
        }
        script.connect(order[last.0], order[last.1], rng.below(ports) as u32);
    }
}

/// Many edges among a few dozen nodes, some of which are then removed.
fn dense(rng: &mut Rng) -> Vector {
    let mut script = Script::new();
    let nodes = rng.within(4, 24);
    joined(rng, &mut script, nodes, 3 * nodes, 5);
    for _ in 0..rng.below(4) {
        script.remove(rng.below(nodes) as u32);
    }
    script.sink(rng.below(nodes) as u32);
    script.prepare();
    for _ in 0..3 {
        script.sources(rng.below(nodes) as u32);
        script.free_port(rng.below(nodes) as u32);
    }
    if rng.once_in(3) {
        script.connect(rng.below(nodes) as u32, rng.below(nodes) as u32, 0);
        script.prepare();
    }
    script.finish()
}

/// One node with many ports that are taken in random order: the search for a free one.
fn crowded(rng: &mut Rng) -> Vector {
    let mut script = Script::new();
    let ports = *rng.pick(&[1, 2, 16, 63, 64]);
    script.add(b"Bus", ports, 0);
    script.add(b"Tone", 0, 0);
    script.add(b"Tone", 1, 1);
    let mut order: Vec<u32> = (0..ports as u32).collect();
    rng.shuffle(&mut order);
    for port in order {
        script.connect(rng.within(1, 2) as u32, 0, port);
        script.free_port(0);
    }
    for _ in 0..3 {
        script.disconnect(0, rng.below(ports) as u32);
        script.free_port(0);
        script.fed_port(2, 0);
    }
    script.sink(0);
    script.prepare();
    script.connect(1, 2, 0);
    script.prepare();
    script.sources(0);
    script.finish()
}

/// A graph of as many nodes and edges as there are places, and calls that find none. It may be closed to a cycle.
fn full(rng: &mut Rng, closed: bool) -> Vector {
    let mut script = Script::new();
    for n in 0..limits::NODES {
        script.add(b"Node", if n == 0 { 64 } else { 4 }, 0);
    }
    script.add(b"Node", 1, 0);
    let mut order: Vec<u32> = (0..limits::NODES as u32).collect();
    rng.shuffle(&mut order);
    // Two ports of every node but the first in order; which ports differ by node.
    for late in 1..limits::NODES {
        for port in [rng.below(2), rng.within(2, 3)] {
            script.connect(order[rng.below(late)], order[late], port as u32);
        }
    }
    script.connect(order[0], order[1], 0);
    script.connect(order[0], order[1], 1);
    for late in 2..limits::NODES {
        if script.graph.all_edges().len() < limits::EDGES {
            script.connect(order[late - 1], order[late], rng.below(4) as u32);
        }
    }
    script.connect(order[0], order[1], 2);
    script.connect(order[0], order[2], 3);
    script.sink(order[limits::NODES - 1]);
    script.prepare();
    if closed {
        script.disconnect(order[limits::NODES - 1], 0);
        script.disconnect(order[limits::NODES - 1], 1);
        script.connect(order[limits::NODES - 1], order[1], 0);
        script.prepare();
    }
    script.finish()
}
