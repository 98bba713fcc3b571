//! The sealed profile of a board (02, Paper 14), which the Rust has not: the player keeps the seal, and refuses with 27 and 28 by itself.

use microsynth::node::NodeId;
use scripted::limits;

use crate::player::Kept;
use crate::store::Store;

/// What an entry states: the bus, its ports P, the host nodes H, the host edges G, and the largest definition, D nodes and E edges.
#[derive(Clone, Copy)]
pub struct Profile {
    pub bus: u32,
    pub ports: u64,
    pub nodes: u64,
    pub edges: u64,
    pub def_nodes: u64,
    pub def_edges: u64,
}

impl Profile {
    /// "P is 2 to 31".
    pub fn has_ports(&self) -> bool {
        (2..=31).contains(&self.ports)
    }

    /// "H + (P + 1) × (D + 3) is at most 512".
    pub fn has_nodes(&self) -> bool {
        together(self.nodes, self.ports, self.def_nodes, 3).is_some_and(|sum| sum <= limits::NODES as u128)
    }

    /// "G + (P + 1) × (E + 4) at most 1,024".
    pub fn has_edges(&self) -> bool {
        together(self.edges, self.ports, self.def_edges, 4).is_some_and(|sum| sum <= limits::EDGES as u128)
    }

    /// Whether a managed spawn, or a wish for one, is left open: "on that bus within D and E", edges as they are given.
    pub(crate) fn opens(&self, bus: u32, kept: &Kept) -> bool {
        bus == self.bus && kept.nodes <= self.def_nodes && kept.edges <= self.def_edges
    }
}

/// `base` and `ports` + 1 times `each` and `spare`, or none where that needs more than 128 bits.
fn together(base: u64, ports: u64, each: u64, spare: u128) -> Option<u128> {
    (u128::from(ports) + 1).checked_mul(u128::from(each) + spare)?.checked_add(base.into())
}

impl Store {
    /// Whether the store is the one that the profile states: "P, H and G are those of the present store, which has no voice".
    pub(crate) fn is_stated(&self, profile: &Profile) -> bool {
        let bus = NodeId::numbered(profile.bus);
        let is_hosts = self.host_nodes(&[bus]).is_ok();
        let ports = self.graph().node_spec(bus).map(|spec| spec.inputs.len() as u64);
        is_hosts
            && ports == Some(profile.ports)
            && self.graph().live_nodes().len() as u64 == profile.nodes
            && self.graph().all_edges().len() as u64 == profile.edges
            && self.engine.voice_rows().next().is_none()
    }
}
