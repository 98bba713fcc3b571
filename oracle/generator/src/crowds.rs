//! The beginnings of crowded scenes: tables that are full, and stores at the brink of a spawn's headroom.

use std::ops::Range;

use replay::script::{Call, Definition};
use scripted::limits;

use crate::scenes::{make, mixed};
use crate::values::{self, Config};
use crate::writer::Writer;

/// The slots of the largest definition and of the smallest.
const LARGEST: u8 = 14;
const SMALLEST: u8 = 0;

/// What a spawn's headroom asks for beyond the definition's own nodes and edges.
const SPARE_NODES: usize = 3;
const SPARE_EDGES: usize = 4;

/// The most calls that a filling makes.
const PATIENCE: usize = 300;

impl Writer {
    /// A store without a tight budget, with these two definitions kept and one wide bus, which is the sink.
    fn open_wide(&mut self) -> Option<u32> {
        let mut config = Config::random(&mut self.rng);
        config.budget = if self.rng.flag() { None } else { Some(64) };
        make(self, config);
        self.put(Call::Keep { slot: LARGEST, definition: values::largest() });
        self.put(Call::Keep { slot: SMALLEST, definition: values::tone() });
        let bus = self.add_node(b"Bus", 64, 0)?;
        self.put(Call::SetSink { node: bus });
        Some(bus)
    }

    /// So many voices of the largest definition.
    fn crowd(&mut self, bus: u32, voices: usize) {
        for _ in 0..voices {
            let managed = self.rng.flag();
            self.spawn_on(LARGEST, bus, managed);
        }
    }

    /// Adds host nodes until so many nodes live.
    fn fill_nodes(&mut self, nodes: usize) {
        for _ in 0..PATIENCE {
            if self.live_nodes() >= nodes {
                break;
            }
            let ports = self.rng.below(9) as u32;
            self.add_node(b"Fill", ports, 0);
        }
    }

    /// Connects free ports of the host nodes that follow this one until there are so many edges.
    pub fn fill_edges(&mut self, from: u32, edges: usize) {
        let ports = self
            .hosts
            .iter()
            .filter(|host| host.id > from)
            .flat_map(|host| (0..host.ports).map(|port| (host.id, port)));
        let ports: Vec<(u32, u32)> = ports.collect();
        for (to, port) in ports {
            if self.edges() >= edges {
                break;
            }
            self.put(Call::Connect { from, to, port });
        }
    }

    /// Connects nodes that stand `step` apart in the list, from each of these places, to this port.
    fn connect_apart(&mut self, nodes: &[u32], places: Range<usize>, step: usize, port: u32) {
        for from in places {
            self.put(Call::Connect { from: nodes[from], to: nodes[from + step], port });
        }
    }

    /// Prepares, and reads the processing order.
    fn order_anew(&mut self) {
        self.put(Call::Prepare {});
        self.put(Call::Order {});
    }

    /// Spawns, and calls that need a place, where there may be none.
    fn push(&mut self, bus: u32) {
        self.spawn_on(LARGEST, bus, true);
        self.spawn_on(SMALLEST, bus, true);
        self.add_node(b"Last", 1, 0);
        let ends: Vec<u32> = self.hosts.iter().map(|host| host.id).collect();
        for port in 0..3 {
            let to = *self.rng.pick(&ends);
            self.put(Call::Connect { from: ends[0], to, port });
        }
    }
}

/// A graph with all the nodes and all the edges that it may have.
pub fn full_graph(writer: &mut Writer) {
    let Some(bus) = writer.open_wide() else { return };
    writer.crowd(bus, 21);
    let Some(from) = writer.add_node(b"Src", 0, 0) else { return };
    for _ in 0..8 {
        writer.add_node(b"Wide", 8, 0);
    }
    writer.fill_nodes(limits::NODES);
    writer.fill_edges(from, limits::EDGES);
    writer.push(bus);
    writer.sound();
    writer.state();
}

/// The big console: 512 nodes of 8 ports in one chain; then with a second edge between its last two nodes, the last of the
/// table; then with all 1,024 edges, without a cycle. Each time an edge is put anew before the prepare.
pub fn big_console(writer: &mut Writer) {
    make(writer, Config { rate: 48_000.0, block: 128, budget: Some(64), policy: 1, per_group: false, has_table: false });
    let nodes: Vec<u32> = (0..limits::NODES).filter_map(|_| writer.add_node(b"Host", 8, 0)).collect();
    let last = nodes.len() - 1;
    writer.put(Call::SetSink { node: nodes[0] });
    writer.connect_apart(&nodes, 0..last, 1, 0);
    writer.connect_apart(&nodes, last / 2..last / 2 + 1, 1, 0);
    writer.order_anew();
    for port in [0, 1] {
        writer.connect_apart(&nodes, last - 1..last, 1, port);
    }
    writer.order_anew();
    writer.connect_apart(&nodes, 0..last - 1, 2, 2);
    writer.connect_apart(&nodes, 0..2, 3, 3);
    writer.connect_apart(&nodes, 100..101, 1, 0);
    writer.order_anew();
}

/// One node more than leaves the headroom of a definition, and then as many as leave it.
pub fn nodes_brink(writer: &mut Writer) {
    let Some(bus) = writer.open_wide() else { return };
    writer.crowd(bus, 16);
    let (slot, def) = some_kept(writer);
    writer.fill_nodes(limits::NODES - SPARE_NODES - def.nodes.len() + 1);
    writer.spawn_on(slot, bus, true);
    if let Some(last) = writer.hosts.last().copied() {
        writer.put(Call::RemoveNode { node: last.id });
    }
    writer.spawn_on(slot, bus, true);
    writer.push(bus);
}

/// One edge more than leaves the headroom of a definition, and then as many as leave it.
pub fn edges_brink(writer: &mut Writer) {
    let Some(bus) = writer.open_wide() else { return };
    let Some(from) = writer.add_node(b"Src", 0, 0) else { return };
    for _ in 0..5 {
        writer.add_node(b"Wide", 64, 0);
    }
    writer.crowd(bus, 16);
    let (slot, def) = some_kept(writer);
    writer.fill_edges(from, limits::EDGES - SPARE_EDGES - def.edges.len() + 1);
    writer.spawn_on(slot, bus, true);
    writer.put(Call::Disconnect { to: from + 1, port: 0 });
    writer.spawn_on(slot, bus, true);
    writer.push(bus);
}

/// A slot within the limits, and its definition.
fn some_kept(writer: &mut Writer) -> (u8, Definition) {
    let slot = writer.rng.below(8) as u8;
    (slot, writer.slots[usize::from(slot)].clone())
}

/// All the voices that there may be.
pub fn many_voices(writer: &mut Writer) {
    let Some(bus) = writer.open_wide() else { return };
    let voices = writer.rng.within(63, 66);
    for _ in 0..voices {
        let managed = writer.rng.flag();
        writer.spawn_on(SMALLEST, bus, managed);
    }
    writer.sound();
    writer.page();
}

/// All the events that there may be, many of them at the times of few renders.
pub fn many_events(writer: &mut Writer) {
    mixed(writer);
    for slot in 0..4 {
        let bus = writer.some_target();
        writer.spawn_on(slot, bus, false);
    }
    let (clock, block) = (writer.clock(), writer.block());
    for _ in 0..4 * limits::EVENTS {
        if writer.pending().count() == limits::EVENTS {
            break;
        }
        let time = clock + writer.rng.below(8 * block) as u64;
        let (voice, name) = (writer.rng.within(1, 5) as u64, values::param(&mut writer.rng));
        let (action, glide) = (*writer.rng.pick(&[0, 0, 0, 1, 1, 1, 2, 2, 3]), values::glide(&mut writer.rng));
        writer.put(Call::Schedule { time, voice, action, name, glide });
    }
    for _ in 0..24 {
        writer.event();
    }
}
