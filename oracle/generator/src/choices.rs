//! Whom a call names: voices and nodes, most often ones that live, now and then one that does not or is not the host's.

use microsynth::engine::VoiceRow;
use microsynth::node::unknown_number;

use crate::writer::{Host, Writer};

impl Writer {
    pub fn some_voice(&mut self) -> u64 {
        let live = self.voices();
        let given = self.voice_ids();
        match self.rng.below(12) {
            0 => given.saturating_add(self.rng.within(1, 3) as u64),
            1 => *self.rng.pick(&[0, 1, u64::MAX]),
            2 => self.rng.bits() % given.max(1),
            _ if live.is_empty() => given,
            _ => *self.rng.pick(&live),
        }
    }

    /// A node that is unknown or dead, or just some number.
    fn some_stranger(&mut self) -> u32 {
        match self.rng.below(3) {
            0 => unknown_number(),
            1 => self.rng.below(600) as u32,
            _ => self.rng.word(),
        }
    }

    /// A node of a voice.
    fn some_voice_node(&mut self) -> Option<u32> {
        let nodes: Vec<u32> = self.engine().voice_rows().flat_map(|row| nodes_of(&row)).collect();
        (!nodes.is_empty()).then(|| *self.rng.pick(&nodes))
    }

    /// A fade, pan or constant node.
    pub fn some_helper_node(&mut self) -> Option<u32> {
        let nodes: Vec<u32> = self.engine().voice_rows().flat_map(|row| helpers_of(&row)).collect();
        (!nodes.is_empty()).then(|| *self.rng.pick(&nodes))
    }

    /// A host node with a port, if there is one.
    pub fn some_bus(&mut self) -> Option<Host> {
        let buses: Vec<Host> = self.hosts.iter().copied().filter(|host| host.ports > 0).collect();
        (!buses.is_empty()).then(|| *self.rng.pick(&buses))
    }

    pub fn some_host(&mut self) -> Option<Host> {
        (!self.hosts.is_empty()).then(|| *self.rng.pick(&self.hosts))
    }

    /// Any node: one in so many is not a host node that lives.
    pub fn some_node(&mut self, strange_once_in: usize) -> u32 {
        let strange = self.rng.once_in(strange_once_in);
        let chosen = match (strange, self.rng.flag()) {
            (false, _) => self.some_host().map(|host| host.id),
            (true, true) => self.some_voice_node(),
            (true, false) => None,
        };
        chosen.unwrap_or_else(|| self.some_stranger())
    }

    /// Where a voice is to go: most often a bus, and on a sealed board the one that it names.
    pub fn some_target(&mut self) -> u32 {
        if let Some(seal) = self.seal
            && !self.rng.once_in(8)
        {
            return seal.bus;
        }
        match (self.rng.once_in(16), self.some_bus()) {
            (false, Some(bus)) => bus.id,
            _ => self.some_node(2),
        }
    }

    /// A port of a node with so many: now and then one that it has not.
    pub fn some_port(&mut self, ports: u32) -> u32 {
        if ports == 0 || self.rng.once_in(20) {
            return *self.rng.pick(&[ports, ports.saturating_add(1), 64, u32::MAX]);
        }
        self.rng.below(ports as usize) as u32
    }

    /// A slot: the first eight hold definitions within the limits.
    pub fn some_slot(&mut self) -> u8 {
        match self.rng.below(20) {
            0 => self.rng.within(8, 15) as u8,
            1 => self.rng.below(256) as u8,
            _ => self.rng.below(8) as u8,
        }
    }
}

/// The fade, pan and constant node of a voice.
pub fn helpers_of(row: &VoiceRow) -> Vec<u32> {
    let pan = row.pan.into_iter().flat_map(|(pan, constant)| [pan, constant]);
    let fade = row.fade.map(|(fade, _, _)| fade);
    pan.chain(fade).map(|id| id.number() as u32).collect()
}

/// All nodes of a voice.
fn nodes_of(row: &VoiceRow) -> Vec<u32> {
    let mut nodes: Vec<u32> = row.synth.node_ids().iter().map(|id| id.number() as u32).collect();
    nodes.extend(helpers_of(row));
    nodes
}
