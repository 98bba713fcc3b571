//! Moves that aim at what random calls seldom reach.

use microsynth::node::unknown_number;
use replay::script::Call;
use seeded::rng::Rng;

use crate::values::{self, Config};
use crate::writer::{Host, Writer, fed_port};

/// A refused making.
pub fn refused_making(rng: &mut Rng) -> Call {
    let mut config = Config::random(rng);
    match rng.below(4) {
        0 => config.rate = *rng.pick(&[0.0, -1.0, 44100.5, 0.5, 384_001.0, f32::NAN, f32::INFINITY, -0.0]),
        1 => config.block = *rng.pick(&[0, 129, 256, u32::MAX]),
        2 => config.budget = Some(*rng.pick(&[65, 66, 1000, u32::MAX])),
        _ => {
            config.rate = *rng.pick(&[44_100.0, 47_999.0, 48_001.0, 24_000.0, 96_000.0]);
            config.has_table = true;
        }
    }
    config.call(rng)
}

impl Writer {
    /// A host node without ports, from which an edge makes no cycle.
    pub fn source(&mut self) -> Option<u32> {
        let sources: Vec<u32> = self.hosts.iter().filter(|host| host.ports == 0).map(|host| host.id).collect();
        match sources.is_empty() {
            true => self.add_node(b"Src", 0, 0),
            false => Some(*self.rng.pick(&sources)),
        }
    }

    /// A host connection to a port that a voice feeds.
    pub fn take_port(&mut self) {
        let engine = self.engine();
        let fed: Vec<(u32, u32)> = engine.voice_rows().filter_map(|row| fed_port(engine, &row)).collect();
        if let (false, Some(from)) = (fed.is_empty(), self.source()) {
            let (to, port) = *self.rng.pick(&fed);
            self.put(Call::Connect { from, to, port });
        }
    }

    /// Removes a bus, most often one that has voices, and most often puts another in its place.
    pub fn remove_bus(&mut self) {
        let held: Vec<u32> =
            self.engine().voice_rows().filter_map(|row| row.bus).map(|bus| bus.number() as u32).collect();
        let held: Vec<u32> = held.into_iter().filter(|bus| self.hosts.iter().any(|host| host.id == *bus)).collect();
        let bus = if held.is_empty() { self.some_bus().map(|bus| bus.id) } else { Some(*self.rng.pick(&held)) };
        if let Some(node) = bus {
            self.put(Call::RemoveNode { node });
            if !self.rng.once_in(4) {
                self.add_bus();
            }
        }
    }

    /// Adds a bus. Once in a while its first port is required.
    pub fn add_bus(&mut self) -> Option<u32> {
        let ports = match self.rng.below(8) {
            0 | 1 => 1,
            2 => 64,
            3 => self.rng.within(9, 63) as u32,
            _ => self.rng.within(2, 6) as u32,
        };
        let required = u64::from(self.rng.once_in(12));
        let bus = self.add_node(b"Bus", ports, required)?;
        if self.rng.flag() {
            self.put(Call::SetSink { node: bus });
        }
        Some(bus)
    }

    /// The host takes ports of a bus until no other is free, and a managed spawn follows: it reclaims one voice after
    /// the other, until a port is free or none is left.
    pub fn squeeze(&mut self) {
        let small: Vec<Host> = self.hosts.iter().copied().filter(|host| (1..=8).contains(&host.ports)).collect();
        let (false, Some(from)) = (small.is_empty(), self.source()) else {
            return;
        };
        let bus = *self.rng.pick(&small);
        for _ in 0..self.rng.within(1, bus.ports as usize + 1) {
            let slot = self.rng.below(8) as u8;
            self.spawn_on(slot, bus.id, true);
        }
        let spared = if self.rng.flag() { bus.ports } else { self.rng.below(bus.ports as usize) as u32 };
        for port in (0..bus.ports).filter(|&port| port != spared) {
            self.put(Call::Connect { from, to: bus.id, port });
        }
        for _ in 0..self.rng.within(1, 2) {
            let slot = self.rng.below(8) as u8;
            self.spawn_on(slot, bus.id, true);
        }
        for port in 0..bus.ports {
            self.put(Call::Disconnect { to: bus.id, port });
        }
    }

    /// A free by an event, after which the prepare in the render fails: the voice alone fed a required port.
    pub fn failing_free(&mut self) {
        let Some(bus) = self.add_node(b"Bus", 2, 1) else {
            return;
        };
        let slot = self.rng.below(8) as u8;
        if let Some(voice) = self.spawn_on(slot, bus, false) {
            self.prepare();
            let (name, glide) = (vec![], values::glide(&mut self.rng));
            let time = self.clock();
            self.put(Call::Schedule { time, voice, action: 3, name, glide });
        }
        self.render();
        self.put(Call::RemoveNode { node: bus });
    }

    /// A cycle of host nodes, and a free of some voice while it stands.
    pub fn cycle(&mut self) {
        let (Some(one), Some(two)) = (self.add_node(b"A", 2, 0), self.add_node(b"B", 1, 0)) else {
            return;
        };
        let from = if self.rng.once_in(3) { one } else { two };
        self.put(Call::Connect { from: one, to: two, port: 0 });
        self.put(Call::Connect { from, to: one, port: 1 });
        if self.rng.flag() {
            self.put(Call::Prepare {});
        }
        let (time, voice, glide) = (self.clock(), self.some_voice(), values::glide(&mut self.rng));
        self.put(Call::Schedule { time, voice, action: 3, name: vec![], glide });
        self.render();
        self.put(Call::RemoveNode { node: one });
        if self.rng.flag() {
            self.put(Call::RemoveNode { node: two });
        }
    }

    /// Many refused calls, one after the other, and the state, which they left as it was.
    pub fn refusals(&mut self) {
        for _ in 0..self.rng.within(10, 30) {
            self.refused();
        }
        self.state();
    }

    /// A call that is refused, whatever the store.
    fn refused(&mut self) {
        let unknown = unknown_number() - self.rng.below(3) as u32;
        let live = self.some_host().map_or(unknown, |host| host.id);
        let helper = self.some_helper_node().unwrap_or(unknown);
        let call = match self.rng.below(16) {
            0 => refused_making(&mut self.rng),
            1 => Call::RemoveNode { node: unknown },
            2 => Call::Connect { from: live, to: unknown, port: 0 },
            3 => Call::Connect { from: helper, to: live, port: 0 },
            4 => Call::Connect { from: live, to: live, port: 64 },
            5 => Call::Disconnect { to: helper, port: 0 },
            6 => Call::Disconnect { to: live, port: u32::MAX },
            7 => Call::SetSink { node: helper },
            8 => Call::SpawnManaged { slot: 15, bus: live, rank: 0 },
            9 => Call::SpawnPanned { slot: 0, bus: helper, pan: 0.5, rank: 0 },
            10 => Call::SpawnManagedPanned { slot: 1, bus: unknown, pan: f32::NAN, rank: 8 },
            11 => Call::AddNode { kind: vec![], ports: 1, required: 0, takes: 0, channels: 1 },
            12 => Call::AddNode { kind: b"Wide".to_vec(), ports: 65, required: 0, takes: 3, channels: 2 },
            13 => Call::AddNode { kind: b"Needs".to_vec(), ports: 2, required: 4, takes: 1, channels: 1 },
            _ => return self.report_refused(),
        };
        self.put(call);
    }

    /// Makes a prepare pass: edges to a lower host node go, required ports of host nodes are fed, and voices with a
    /// required port that is not fed go.
    pub fn mend(&mut self) {
        let edges: Vec<(u32, u32, u32)> = self.host_edges();
        for (_, to, port) in edges.into_iter().filter(|(from, to, _)| from >= to) {
            self.put(Call::Disconnect { to, port });
        }
        for (node, port) in self.unfed() {
            match self.owner(node) {
                Some(voice) => drop(self.put(Call::Free { voice })),
                None => {
                    if let Some(from) = self.source() {
                        self.put(Call::Connect { from, to: node, port });
                    }
                }
            }
        }
    }

    /// The edges between host nodes: from, to, port.
    fn host_edges(&self) -> Vec<(u32, u32, u32)> {
        let is_host = |id: u32| self.hosts.iter().any(|host| host.id == id);
        let edges = self.engine().graph().all_edges().iter();
        let edges = edges.map(|edge| (edge.from.number() as u32, edge.to.number() as u32, edge.to_input as u32));
        edges.filter(|&(from, to, _)| is_host(from) && is_host(to)).collect()
    }

    /// The required ports that nothing feeds: node, port.
    fn unfed(&self) -> Vec<(u32, u32)> {
        let graph = self.engine().graph();
        let mut unfed = vec![];
        for id in graph.live_nodes() {
            let fed: Vec<usize> = graph.used_input_slots(id).collect();
            let inputs = graph.node_spec(id).expect("the node lives").inputs;
            let missing = inputs.iter().enumerate().filter(|(port, input)| input.required && !fed.contains(port));
            unfed.extend(missing.map(|(port, _)| (id.number() as u32, port as u32)));
        }
        unfed
    }

    /// The voice that a node belongs to.
    fn owner(&self, node: u32) -> Option<u64> {
        let owns = |ids: &[microsynth::node::NodeId]| ids.iter().any(|id| id.number() as u32 == node);
        self.engine().voice_rows().find(|row| owns(row.synth.node_ids())).map(|row| row.id.0)
    }
}
