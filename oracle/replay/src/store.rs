//! The Rust's engine, and what the store keeps that the Rust does not.

use std::collections::HashMap;

use microsynth::engine::{Engine, EngineConfig, VoiceRow};
use microsynth::graph::AudioGraph;
use microsynth::node::{self, NodeId};
use microsynth::scheduler::{Event, VoiceId};
use microsynth::table;
use microsynth::voice::{BudgetScope, StealPolicy, VoiceAllocator};
use scripted::generator::{Handle, Log};
use scripted::limits::{self, Refusal, check};
use scripted::queue::Queue;

/// The lines of an entry, or a refusal.
pub(crate) type Answer = Result<String, Refusal>;

/// A node whose generator is ours: one of the host's, or one of a voice's definition.
pub(crate) struct Part {
    pub handle: Handle,
    pub takes_values: bool,
    pub takes_glides: bool,
    pub is_hosts: bool,
}

/// What a voice got at its spawn.
pub(crate) struct Birth {
    pub port: usize,
    pub sequence: u32,
}

/// What making fixes.
pub struct Config {
    pub rate: f32,
    pub block: u32,
    /// The budget, the policy and the scope.
    pub budget: Option<(u32, StealPolicy, BudgetScope)>,
    /// Whether fades take their gains from the fade table.
    pub has_table: bool,
}

impl Config {
    /// 1, 2, 3 or 20.
    pub(crate) fn check(&self) -> Result<(), Refusal> {
        limits::whole_rate(self.rate)?;
        check((1..=128).contains(&self.block), 2)?;
        check(self.budget.is_none_or(|(budget, ..)| budget as usize <= limits::BUDGET), 3)?;
        check(!self.has_table || self.rate == table::RATE, 20)
    }
}

pub struct Store {
    pub(crate) engine: Engine,
    pub(crate) parts: HashMap<NodeId, Part>,
    pub(crate) births: HashMap<VoiceId, Birth>,
    pub(crate) log: Log,
    /// The pending events, of which the Rust keeps also those that were replaced.
    pub(crate) queue: Queue,
}

impl Store {
    /// A new store; 1, 2, 3 or 20.
    pub fn make(config: &Config) -> Result<Store, Refusal> {
        config.check()?;
        table::choose(config.has_table);
        node::count_from(0);
        let mut engine = Engine::new(EngineConfig { sample_rate: config.rate, block_size: config.block as usize });
        if let Some((budget, policy, scope)) = config.budget {
            engine.set_voice_allocator(VoiceAllocator::new(budget as usize, policy).with_scope(scope));
        }
        Ok(Store { engine, parts: HashMap::new(), births: HashMap::new(), log: Log::default(), queue: Queue::default() })
    }

    /// The engine, to be looked at.
    pub fn engine(&self) -> &Engine {
        &self.engine
    }

    /// The events that wait.
    pub fn pending(&self) -> impl Iterator<Item = &Event> {
        self.queue.left()
    }

    pub(crate) fn graph(&self) -> &AudioGraph {
        self.engine.graph()
    }

    pub(crate) fn block(&self) -> usize {
        self.engine.context().block_size
    }

    /// How many voice ids were given out. After the last one the Rust's next id has wrapped to 0.
    pub(crate) fn voices_given(&self) -> u64 {
        self.engine.scheduler().next_voice().0.wrapping_sub(1)
    }

    /// The live nodes of the host.
    fn host_ids(&self) -> Vec<NodeId> {
        let is_hosts = |id: &NodeId| self.parts.get(id).is_some_and(|part| part.is_hosts);
        self.graph().live_nodes().into_iter().filter(is_hosts).collect()
    }

    /// Sets the counters, the noise sequence of every live node of the host among them. The next node id moves forwards alone; the Rust's
    /// nodes are the rows of a table, so that it can move before the first node is added.
    pub(crate) fn set_counters(&mut self, clock: u64, voices: u64, noise: u32, node: u64) {
        assert!(voices >= self.voices_given(), "two voices of one id: the voice ids given out go back");
        if node > self.graph().next_number() {
            assert!(self.graph().is_new(), "the node ids move after the first node");
            node::count_from(u32::try_from(node).expect("a node id is left"));
        }
        self.engine.set_sample_offset(clock);
        self.engine.scheduler_mut().set_next_voice(VoiceId(voices.wrapping_add(1)));
        for bus in self.host_ids() {
            self.engine.set_noise_sequence_of(bus, noise);
        }
    }

    pub(crate) fn tracked(&self) -> &[VoiceId] {
        self.engine.voice_allocator().map_or(&[], VoiceAllocator::active_voices)
    }

    pub(crate) fn voice(&self, id: VoiceId) -> Option<VoiceRow<'_>> {
        self.engine.voice_rows().find(|row| row.id == id)
    }
}

/// The nodes of a voice.
pub(crate) fn nodes_of(row: &VoiceRow<'_>) -> Vec<NodeId> {
    let pan = row.pan.into_iter().flat_map(|(pan, constant)| [pan, constant]);
    let fade = row.fade.map(|(fade, ..)| fade);
    row.synth.node_ids().iter().copied().chain(pan).chain(fade).collect()
}

/// The node of a voice that fed its bus when it was spawned: its pan node, or its output.
pub(crate) fn feeder(row: &VoiceRow<'_>) -> NodeId {
    row.pan.map_or(row.synth.output_node(), |(pan, _)| pan)
}

/// The bus that a voice was spawned on.
pub(crate) fn bus_of(row: &VoiceRow<'_>) -> NodeId {
    row.bus.expect("every voice of a script has a bus")
}
