
// Accessors for the oracle, appended by its build.

/// What a graph had before `mute`.
pub struct Muted {
    order: Vec<NodeId>,
    sources: Vec<Vec<Option<NodeId>>>,
    sink: Option<NodeId>,
}

impl AudioGraph {
    /// The edges in the order they were put.
    pub fn all_edges(&self) -> &[Edge] {
        &self.edges
    }

    /// The order of the last prepare.
    pub fn processing_order(&self) -> &[NodeId] {
        &self.topo_order
    }

    /// The node that each port of `id` read from at the last prepare.
    pub fn resolved_sources(&self, id: NodeId) -> &[Option<NodeId>] {
        self.input_sources.get(id.index()).map_or(&[], |ports| ports)
    }

    pub fn sink_node(&self) -> Option<NodeId> {
        self.sink
    }

    /// The live nodes by rising id.
    pub fn live_nodes(&self) -> Vec<NodeId> {
        let given = self.nodes.iter().enumerate();
        given.filter(|(_, slot)| slot.is_some()).map(|(id, _)| NodeId(id as u32)).collect()
    }

    /// The next node id, 2^32 where none is left.
    pub fn next_number(&self) -> u64 {
        u64::from(crate::node::first_number()) + self.nodes.len() as u64
    }

    /// Whether no node was added yet.
    pub fn is_new(&self) -> bool {
        self.nodes.is_empty()
    }

    /// Puts an edge behind the others, and leaves those that stand at its port: `connect` takes them away.
    pub fn append_edge(&mut self, from: NodeId, to: NodeId, input_index: usize) {
        self.edges.push(Edge { from, to, to_input: input_index });
        self.dirty = true;
    }

    /// What `act` answers while these nodes, each named once, and their edges are not there.
    pub fn without<T>(&mut self, ids: &[NodeId], act: impl FnOnce(&mut AudioGraph) -> T) -> T {
        let edges = self.edges.clone();
        let slots: Vec<_> = ids.iter().map(|id| self.nodes[id.index()].take()).collect();
        self.edges.retain(|e| !ids.contains(&e.from) && !ids.contains(&e.to));
        let answer = act(self);
        self.edges = edges;
        for (id, slot) in ids.iter().zip(slots) {
            self.nodes[id.index()] = slot;
        }
        answer
    }

    /// Takes the sink away, so that no render processes a node, prepared or not.
    pub fn mute(&mut self) -> Muted {
        Muted { order: self.topo_order.clone(), sources: self.input_sources.clone(), sink: self.sink.take() }
    }

    /// Puts back the sink, and the order and the sources of the last good prepare. The graph is unprepared.
    pub fn unmute(&mut self, muted: Muted) {
        self.topo_order = muted.order;
        self.input_sources = muted.sources;
        self.sink = muted.sink;
        self.dirty = true;
    }

    /// The order that a prepare would leave. The one that stands is kept.
    pub fn trial_order(&mut self) -> Vec<NodeId> {
        let kept = self.topo_order.clone();
        self.topological_sort();
        core::mem::replace(&mut self.topo_order, kept)
    }

    /// Whether a prepare would get past the required ports. The table of sources that stands is kept.
    pub fn trial_inputs(&mut self) -> bool {
        let kept = self.input_sources.clone();
        let resolved = std::panic::catch_unwind(std::panic::AssertUnwindSafe(|| self.resolve_inputs()));
        self.input_sources = kept;
        resolved.is_ok()
    }

    /// The position of the fade at `id`, which the caller knows to be a `StealFade`.
    pub fn fade_position(&self, id: NodeId) -> u64 {
        let slot = self.nodes[id.index()].as_ref().expect("the fade is live");
        let fade = &*slot.ugen as *const dyn UGen as *const crate::ugens::StealFade;
        // SAFETY: the engine puts a `StealFade` at the id that it keeps as a voice's fade, and no id returns.
        unsafe { (*fade).position() }
    }
}
