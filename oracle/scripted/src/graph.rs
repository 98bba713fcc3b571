//! The graph of the Rust with the store's refusals in front of it.

use std::panic;

use microsynth::graph::AudioGraph;
use microsynth::node::NodeId;

use crate::limits::{self, Refusal, check};

/// How many ports a live node has.
fn ports(graph: &AudioGraph, id: NodeId) -> Option<usize> {
    graph.node_spec(id).map(|spec| spec.inputs.len())
}

/// Whether a host may touch these nodes: 4 if one is unknown or dead, else 5 if a voice owns one.
pub fn host_nodes(graph: &AudioGraph, owned: impl Fn(NodeId) -> bool, ids: &[NodeId]) -> Result<(), Refusal> {
    check(ids.iter().all(|&id| ports(graph, id).is_some()), 4)?;
    check(!ids.iter().any(|&id| owned(id)), 5)
}

/// Whether a host node may be added: 6 for its name, ports and required ports, 7 for the table, 8 for the ids.
pub fn host_add(graph: &AudioGraph, name: &[u8], ports: usize, required: u64) -> Result<(), Refusal> {
    let named = limits::is_name(name) && ports <= limits::HOST_PORTS;
    check(named && (ports == 64 || required >> ports == 0), 6)?;
    check(graph.live_nodes().len() < limits::NODES, 7)?;
    check(graph.next_number() < limits::NODE_IDS, 8)
}

/// Whether a live node has this port; else 6.
pub fn port_of(graph: &AudioGraph, id: NodeId, port: usize) -> Result<(), Refusal> {
    check(ports(graph, id).is_some_and(|n| port < n), 6)
}

/// Whether an edge to this port finds a place: one that replaces another needs none; else 7.
pub fn edge_place(graph: &AudioGraph, to: NodeId, port: usize) -> Result<(), Refusal> {
    let replaces = graph.used_input_slots(to).any(|used| used == port);
    check(replaces || graph.all_edges().len() < limits::EDGES, 7)
}

/// The lowest port of a node without an edge, as the engine's spawn looks for it.
pub fn free_port(graph: &AudioGraph, id: NodeId) -> Option<usize> {
    let used: Vec<usize> = graph.used_input_slots(id).collect();
    (0..ports(graph, id)?).find(|port| !used.contains(port))
}

/// What `act` answers. Of a panic that it catches nothing is printed.
pub fn quietly<T>(act: impl FnOnce() -> T) -> T {
    let hook = panic::take_hook();
    panic::set_hook(Box::new(|_| ()));
    let answer = act();
    panic::set_hook(hook);
    answer
}

/// What a prepare answers: the order that the Rust would leave; 13 where it would panic for a required port; 14 where
/// its order would leave a live node out. The graph stays as it is.
pub fn trial(graph: &mut AudioGraph) -> Result<Vec<NodeId>, Refusal> {
    check(quietly(|| graph.trial_inputs()), 13)?;
    let order = graph.trial_order();
    check(order.len() == graph.live_nodes().len(), 14)?;
    Ok(order)
}
