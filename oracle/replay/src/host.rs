//! Host nodes, wiring and the sink.

use microsynth::node::NodeId;
use scripted::generator::{Generator, Handle, Kind, Port};
use scripted::graph;
use scripted::limits::Refusal;
use scripted::name;

use crate::definition::{channels, takes_glides, takes_values};
use crate::store::{Part, Store};

impl Store {
    /// 4 if one of these is unknown or dead, else 5 if one is a voice's.
    pub(crate) fn host_nodes(&self, ids: &[NodeId]) -> Result<(), Refusal> {
        let is_voices = |id| !self.parts.get(&id).is_some_and(|part| part.is_hosts);
        graph::host_nodes(self.graph(), is_voices, ids)
    }

    pub(crate) fn add_node(
        &mut self,
        kind: &[u8],
        ports: u32,
        required: u64,
        takes: u8,
        channel_count: u8,
    ) -> Result<NodeId, Refusal> {
        graph::host_add(self.graph(), kind, ports as usize, required)?;
        let port = |p| Port { name: String::new(), required: required >> p & 1 == 1 };
        let kind = Kind {
            name: name::text(kind),
            ports: (0..ports).map(port).collect(),
            channels: channels(channel_count),
            takes_values: takes_values(takes),
            takes_glides: takes_glides(takes),
        };
        let handle = Handle::default();
        let generator = Generator::new(&kind, handle.clone(), self.log.clone());
        let id = self.engine.graph_mut().add_node(Box::new(generator));
        let Kind { takes_values, takes_glides, .. } = kind;
        self.keep_part(id, Part { handle, takes_values, takes_glides, is_hosts: true });
        Ok(id)
    }

    /// Keeps the way to a node's generator, which from now on signs with its id.
    pub(crate) fn keep_part(&mut self, id: NodeId, part: Part) {
        part.handle.state().mark = id.number() as u32;
        self.parts.insert(id, part);
    }

    pub(crate) fn remove_node(&mut self, node: NodeId) -> Result<(), Refusal> {
        self.host_nodes(&[node])?;
        self.engine.graph_mut().remove_node(node);
        Ok(())
    }

    pub(crate) fn connect(&mut self, from: NodeId, to: NodeId, port: usize) -> Result<(), Refusal> {
        self.host_nodes(&[from, to])?;
        graph::port_of(self.graph(), to, port)?;
        graph::edge_place(self.graph(), to, port)?;
        self.engine.graph_mut().connect(from, to, port);
        Ok(())
    }

    pub(crate) fn disconnect(&mut self, to: NodeId, port: usize) -> Result<(), Refusal> {
        self.host_nodes(&[to])?;
        graph::port_of(self.graph(), to, port)?;
        self.engine.graph_mut().disconnect(to, port);
        Ok(())
    }

    pub(crate) fn set_sink(&mut self, node: NodeId) -> Result<(), Refusal> {
        self.host_nodes(&[node])?;
        self.engine.graph_mut().set_sink(node);
        Ok(())
    }
}
