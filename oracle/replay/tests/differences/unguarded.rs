//! The Rust with nothing in front of it: each entry is passed on as it is, refused by the store or not.

use std::collections::HashMap;
use std::panic::{AssertUnwindSafe, catch_unwind};

use microsynth::engine::{Engine, EngineConfig};
use microsynth::node::NodeId;
use microsynth::scheduler::VoiceId;
use microsynth::synthdef::SynthDef;
use microsynth::voice::VoiceAllocator;
use replay::orders::event_of;
use replay::player::{policy_of, scope_of};
use replay::script::Call;
use scripted::definition::{Definition, Made};
use scripted::generator::{Generator, Handle, Kind, Log, Port};
use scripted::name;
use scripted::words::{self, or_dash, row};

use crate::engines;

pub struct Unguarded {
    pub engine: Engine,
    slots: HashMap<u8, SynthDef>,
}

impl Default for Unguarded {
    fn default() -> Unguarded {
        Unguarded { engine: engines::plain(), slots: HashMap::new() }
    }
}

fn voice_line(voice: Option<VoiceId>) -> String {
    format!("voice {}", or_dash(voice.map(|voice| voice.0)))
}

impl Unguarded {
    /// What the Rust answers, in the words of a transcript; `panics` where it panics.
    pub fn answer(&mut self, call: &Call) -> String {
        let done = |is_change: bool| is_change.then(|| "done".to_string());
        let act = AssertUnwindSafe(|| self.say(call).or_else(|| done(self.change(call))));
        match catch_unwind(act) {
            Ok(answer) => answer.unwrap_or_else(|| self.read(call)),
            Err(_) => "panics".to_string(),
        }
    }

    /// Plays an entry that has more to answer than that it was done.
    fn say(&mut self, call: &Call) -> Option<String> {
        let (engine, id) = (&mut self.engine, NodeId::numbered);
        Some(match *call {
            Call::Make { .. } => self.make(call),
            Call::SetCounters { clock, voices, .. } => self.set_counters(clock, voices),
            Call::AddNode { ref kind, ports, required, .. } => self.add_node(kind, ports, required),
            Call::Keep { slot, ref definition } => {
                let definition = Definition::from(definition).build(&Made::default(), &Log::default());
                self.slots.insert(slot, definition);
                "kept".to_string()
            }
            Call::SpawnManaged { slot, bus, .. } => {
                voice_line(engine.spawn_voice_on_bus_managed(&self.slots[&slot], id(bus)))
            }
            Call::SpawnManagedPanned { slot, bus, pan, .. } => {
                voice_line(engine.spawn_voice_on_bus_panned_managed(&self.slots[&slot], id(bus), pan))
            }
            Call::Spawn { slot, bus, .. } => voice_line(engine.spawn_voice_on_bus(&self.slots[&slot], id(bus))),
            Call::Render {} => if engine.render().is_some() { "sounding" } else { "silent" }.to_string(),
            _ => return None,
        })
    }

    /// Plays an entry that is done without an answer; no where it is no such entry.
    fn change(&mut self, call: &Call) -> bool {
        let (engine, id) = (&mut self.engine, NodeId::numbered);
        match *call {
            Call::RemoveNode { node } => engine.graph_mut().remove_node(id(node)),
            Call::Connect { from, to, port } => engine.graph_mut().connect(id(from), id(to), port as usize),
            Call::Disconnect { to, port } => engine.graph_mut().disconnect(id(to), port as usize),
            Call::SetSink { node } => engine.graph_mut().set_sink(id(node)),
            Call::Free { voice } => engine.free_voice(VoiceId(voice)),
            Call::Schedule { .. } => {
                engine.scheduler_mut().schedule(event_of(call).expect("the entry schedules an event"));
            }
            Call::Prepare {} => engine.prepare(),
            _ => return false,
        }
        true
    }

    fn make(&mut self, call: &Call) -> String {
        let Call::Make { rate, block, budgeted, budget, policy, scope } = *call else {
            unreachable!("{call:?} makes no store");
        };
        self.engine = Engine::new(EngineConfig { sample_rate: rate, block_size: block as usize });
        if budgeted != 0 {
            let allocator = VoiceAllocator::new(budget as usize, policy_of(policy)).with_scope(scope_of(scope));
            self.engine.set_voice_allocator(allocator);
        }
        "made".to_string()
    }

    fn set_counters(&mut self, clock: u64, voices: u64) -> String {
        self.engine.set_sample_offset(clock);
        self.engine.scheduler_mut().set_next_voice(VoiceId(voices.wrapping_add(1)));
        "set".to_string()
    }

    fn add_node(&mut self, kind: &[u8], ports: u32, required: u64) -> String {
        let port = |p| Port { name: String::new(), required: p < 64 && required >> p & 1 == 1 };
        let kind = Kind { ports: (0..ports).map(port).collect(), ..Kind::plain(&name::text(kind), 0) };
        let generator = Generator::new(&kind, Handle::default(), Log::default());
        format!("node {}", self.engine.graph_mut().add_node(Box::new(generator)).index())
    }

    fn read(&self, call: &Call) -> String {
        let graph = self.engine.graph();
        match call {
            Call::Voices {} => row("voices", self.engine.voice_rows().map(|voice| voice.id.0)),
            Call::Steals {} => {
                let all = self.engine.steals();
                row(&format!("steals {}", all.len()), all.iter().map(words::steal))
            }
            Call::Edges {} => {
                let edges = graph.all_edges().iter();
                row("edges", edges.flat_map(|edge| [edge.from.index(), edge.to.index(), edge.to_input]))
            }
            Call::Order {} => row("order", graph.processing_order().iter().map(|node| node.index())),
            Call::Clock {} => format!("clock {}", self.engine.sample_offset()),
            _ => unreachable!("no script here passes on {call:?}"),
        }
    }
}
