//! Stands in for the routing graph, which `engine.rs` names and no compared call reaches: there are no buses and no
//! effects in it.

use crate::node::NodeId;
use crate::synthdef::Synth;

#[derive(Clone, Copy)]
pub struct BusId;

#[derive(Clone, Copy)]
pub struct EffectId;

pub struct Effect {
    pub source_bus: BusId,
    pub target_bus: BusId,
    pub def_name: String,
    pub synth: Option<Synth>,
}

pub struct RoutingGraph;

impl RoutingGraph {
    pub fn bus_ids(&self) -> impl Iterator<Item = BusId> + '_ {
        core::iter::empty()
    }

    pub fn bus_info(&self, _bus: BusId) -> Option<(&str, usize)> {
        None
    }

    pub fn set_bus_node(&mut self, _bus: BusId, _node: NodeId) {}

    pub fn bus_node(&self, _bus: BusId) -> Option<NodeId> {
        None
    }

    pub fn main_bus(&self) -> BusId {
        BusId
    }

    pub fn num_effects(&self) -> usize {
        0
    }

    pub fn effects(&self) -> &[Effect] {
        &[]
    }

    pub fn effects_mut(&mut self) -> &mut [Effect] {
        &mut []
    }

    pub fn effect_synth(&self, _effect: EffectId) -> Option<&Synth> {
        None
    }
}
