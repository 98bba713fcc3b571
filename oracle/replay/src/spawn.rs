//! The spawns, and the refusals that the Rust cannot give.

use microsynth::engine::{VoiceRow, noise_seed};
use microsynth::node::NodeId;
use microsynth::scheduler::VoiceId;
use microsynth::voice::{BudgetScope, StealPolicy, VoiceAllocator};
use scripted::definition::{Definition, Made};
use scripted::graph;
use scripted::limits::{self, Refusal, check};

use crate::store::{Birth, Part, Store, bus_of, feeder};

/// Which of the four spawns it is, and on which bus.
pub(crate) struct Spawn {
    pub is_managed: bool,
    pub bus: NodeId,
    /// None for the calls that have no pan.
    pub pan: Option<f32>,
}

impl Store {
    /// Passes the spawn on to the Rust where the table does not refuse it before admission. The Rust has one `None` for
    /// 11 and 12: it is 11 where admission rejects.
    pub(crate) fn spawn(&mut self, def: &Definition, how: &Spawn) -> Result<VoiceId, Refusal> {
        self.spawn_refusal(def, how.bus)?;
        let is_rejected = how.is_managed && self.rejects(how.bus);
        let sequence = self.engine.noise_sequence(how.bus);
        let made = Made::default();
        match self.pass_on(def, how, &made) {
            Some(voice) => {
                assert!(!is_rejected, "the Rust lets a voice in that admission rejects");
                self.keep_voice(voice, def, &made, sequence);
                Ok(voice)
            }
            None if is_rejected => Err(11),
            None => {
                assert!(!self.has_way_in(how), "the Rust lets nobody in where there is a port or a voice to reclaim");
                Err(12)
            }
        }
    }

    fn pass_on(&mut self, def: &Definition, how: &Spawn, made: &Made) -> Option<VoiceId> {
        let def = def.build(made, &self.log);
        let engine = &mut self.engine;
        match (how.is_managed, how.pan) {
            (true, Some(pan)) => engine.spawn_voice_on_bus_panned_managed(&def, how.bus, pan),
            (false, Some(pan)) => engine.spawn_voice_on_bus_panned(&def, how.bus, pan),
            (true, None) => engine.spawn_voice_on_bus_managed(&def, how.bus),
            (false, None) => engine.spawn_voice_on_bus(&def, how.bus),
        }
    }

    /// 4, 5, 10, 7 and 8 of a spawn; its 9 was found when the definition was kept.
    fn spawn_refusal(&self, def: &Definition, bus: NodeId) -> Result<(), Refusal> {
        self.host_nodes(&[bus])?;
        graph::port_of(self.graph(), bus, 0).or(Err(10))?;
        let (nodes, edges) = (def.nodes.len(), def.edges.len());
        let has_headroom = self.graph().live_nodes().len() + nodes + 3 <= limits::NODES
            && self.graph().all_edges().len() + edges + 4 <= limits::EDGES
            && self.engine.voice_rows().count() < limits::VOICES;
        check(has_headroom, 7)?;
        let has_ids = self.graph().next_number() + nodes as u64 + 3 <= limits::NODE_IDS
            && self.voices_given() < limits::VOICE_IDS;
        check(has_ids, 8)
    }

    /// Whether admission rejects: at budget, and the policy has no victim.
    fn rejects(&self, bus: NodeId) -> bool {
        let Some(allocator) = self.engine.voice_allocator() else {
            return false;
        };
        let counts = |row: &VoiceRow<'_>| allocator.scope() == BudgetScope::Global || bus_of(row) == bus;
        let counted = self.tracked_rows().filter(counts).count();
        counted >= allocator.budget() && (allocator.policy() == StealPolicy::Reject || counted == 0)
    }

    fn tracked_rows(&self) -> impl Iterator<Item = VoiceRow<'_>> {
        self.engine.voice_rows().filter(|row| self.tracked().contains(&row.id))
    }

    /// Whether a spawn that was let in would find a port: a free one, or under a budget that of a fade or of a victim of
    /// the bus.
    fn has_way_in(&self, how: &Spawn) -> bool {
        let is_on = |row: &VoiceRow<'_>| bus_of(row) == how.bus;
        let may_reclaim = |allocator: &VoiceAllocator| {
            self.engine.voice_rows().any(|row| is_on(&row) && row.fade.is_some())
                || allocator.policy() != StealPolicy::Reject && self.tracked_rows().any(|row| is_on(&row))
        };
        graph::free_port(self.graph(), how.bus).is_some()
            || how.is_managed && self.engine.voice_allocator().is_some_and(may_reclaim)
    }

    /// Keeps what the Rust does not: the generators, the port given, and the noise sequence, by which the generators
    /// must have been seeded.
    fn keep_voice(&mut self, voice: VoiceId, def: &Definition, made: &Made, sequence: u32) {
        let row = self.voice(voice).expect("the Rust has let it in");
        let ids = row.synth.node_ids().to_vec();
        let port = self.graph().input_slot_from(feeder(&row), bus_of(&row)).expect("a new voice feeds its bus");
        self.births.insert(voice, Birth { port, sequence });
        let handles = made.lock().expect("no holder of the list panics");
        for (place, (&id, handle)) in ids.iter().zip(handles.iter()).enumerate() {
            assert_eq!(handle.state().seeds, [noise_seed(sequence, place)], "the seed of node {place}");
            let (takes_values, takes_glides) = (def.nodes[place].takes_values, def.nodes[place].takes_glides);
            self.keep_part(id, Part { handle: handle.clone(), takes_values, takes_glides, is_hosts: false });
        }
    }
}
