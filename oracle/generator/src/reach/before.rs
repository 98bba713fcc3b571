//! The store as it stood before a call.

use microsynth::engine::Engine;
use microsynth::node::NodeId;
use microsynth::scheduler::{Event, EventAction, VoiceId};
use microsynth::ugens::steal_fade_samples;
use replay::script::Call;
use replay::store::Store;

use crate::writer::fed_port;

pub struct Voice {
    pub id: u64,
    pub bus: Option<NodeId>,
    pub output: NodeId,
    pub output_kind: &'static str,
    pub nodes: Vec<NodeId>,
    pub fade: Option<Fade>,
    /// The bus and the port of it that the voice feeds.
    pub feeds: Option<(u32, u32)>,
    pub level: Option<f32>,
    pub has_gate: bool,
}

#[derive(Clone, Copy)]
pub struct Fade {
    pub start: u64,
    pub record: usize,
    pub ended: bool,
    /// Whether it came to its end, at the earliest, in the last sounding render.
    pub is_fresh: bool,
}

pub struct Before {
    pub clock: u64,
    /// The noise sequence of the bus, where a voice is spawned; else 0.
    pub noise: u32,
    pub prepared: bool,
    pub sink: Option<NodeId>,
    pub steals: usize,
    pub nodes: usize,
    pub edges: usize,
    pub voices: Vec<Voice>,
    tracked: Vec<VoiceId>,
    pub done: Vec<NodeId>,
    /// The events that a render takes.
    pub due: Vec<EventAction>,
    /// The events that wait, where one more is scheduled.
    pub waiting: Vec<Event>,
}

/// The bus of a spawn.
fn bus_of(call: &Call) -> Option<NodeId> {
    match call {
        Call::SpawnManagedPanned { bus, .. }
        | Call::SpawnPanned { bus, .. }
        | Call::SpawnManaged { bus, .. }
        | Call::Spawn { bus, .. } => Some(NodeId::numbered(*bus)),
        _ => None,
    }
}

impl Before {
    pub fn of(store: &Store, call: &Call) -> Before {
        let engine = store.engine();
        let graph = engine.graph();
        let live = graph.live_nodes();
        Before {
            clock: engine.sample_offset(),
            noise: bus_of(call).map_or(0, |bus| engine.noise_sequence(bus)),
            prepared: !graph.is_dirty(),
            sink: graph.sink_node(),
            steals: engine.steals().len(),
            nodes: live.len(),
            edges: graph.all_edges().len(),
            voices: voices(engine),
            tracked: engine.voice_allocator().map_or(vec![], |allocator| allocator.active_voices().to_vec()),
            done: live.into_iter().filter(|&id| graph.node_is_done(id)).collect(),
            due: if matches!(call, Call::Render {} | Call::RenderLent { .. }) { due(store) } else { vec![] },
            waiting: if matches!(call, Call::Schedule { .. }) { store.pending().cloned().collect() } else { vec![] },
        }
    }

    /// The tracked voices in order.
    pub fn tracked(&self) -> impl Iterator<Item = &Voice> {
        self.voices.iter().filter(|voice| self.tracked.contains(&VoiceId(voice.id)))
    }

    pub fn voice(&self, id: u64) -> Option<&Voice> {
        self.voices.iter().find(|voice| voice.id == id)
    }
}

fn due(store: &Store) -> Vec<EventAction> {
    let engine = store.engine();
    let deadline = engine.sample_offset().saturating_add(engine.context().block_size as u64);
    let due = store.pending().take_while(|event| event.time < deadline);
    due.map(|event| event.action.clone()).collect()
}

fn voices(engine: &Engine) -> Vec<Voice> {
    let length = steal_fade_samples(engine.context().sample_rate) as u64;
    let fade = |(node, start, record)| {
        let position = engine.graph().fade_position(node);
        let is_fresh = position < length + engine.context().block_size as u64;
        Fade { start, record, ended: position >= length, is_fresh }
    };
    let voice = engine.voice_rows().map(|row| Voice {
        id: row.id.0,
        bus: row.bus,
        output: row.synth.output_node(),
        output_kind: engine.graph().node_spec(row.synth.output_node()).map_or("", |spec| spec.name),
        nodes: row.synth.node_ids().to_vec(),
        fade: row.fade.map(fade),
        feeds: fed_port(engine, &row),
        level: engine.voice_level(row.id),
        has_gate: row.synth.param_node("gate").is_some(),
    });
    voice.collect()
}
