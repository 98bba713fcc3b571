//! What can be read of the store, and its whole state.

use std::collections::HashMap;

use microsynth::engine::VoiceRow;
use microsynth::node::NodeId;
use microsynth::scheduler::{Event, EventAction, VoiceId};
use scripted::generator::Order;
use scripted::limits;
use scripted::name;
use scripted::words::{self, hex32, or_dash, row};

use crate::script::Call;
use crate::store::{Answer, Store, nodes_of};

/// The bytes of a name in hexadecimal, or `-` where they are no name.
fn name_word(name: &[u8]) -> String {
    if limits::is_name(name) { name.iter().map(|byte| format!("{byte:02x}")).collect() } else { "-".to_string() }
}

fn ids(ids: &[NodeId]) -> impl Iterator<Item = usize> {
    ids.iter().map(|id| id.number())
}

fn order_words(order: Option<&Order>) -> String {
    match order {
        None => "-".to_string(),
        Some(Order::Value(value)) => format!("value {}", hex32(*value)),
        Some(Order::Glide(target, seconds, shape, space)) => {
            format!("glide {}", words::glide(*target, *seconds, *shape, *space))
        }
    }
}

fn event_line(event: &Event) -> String {
    let name = |param: &str| name_word(&name::bytes(param));
    let (voice, action) = match &event.action {
        EventAction::SetParam { voice, param, value } => (voice, format!("value {} {}", name(param), hex32(*value))),
        EventAction::SetParamGlide { voice, param, target, glide_secs, shape, space } => {
            let glide = words::glide(*target, *glide_secs, *shape, *space);
            (voice, format!("glide {} {glide}", name(param)))
        }
        EventAction::SetGate { voice, value } => (voice, format!("gate {}", hex32(*value))),
        EventAction::FreeSynth { voice } => (voice, "free".to_string()),
    };
    format!("event {} {} {action}", event.time, voice.0)
}

impl Store {
    /// What an entry answers that only reads.
    pub(crate) fn read(&mut self, call: &Call) -> Answer {
        let voice_or_dash = |row: Option<VoiceRow<'_>>| or_dash(row.map(|row| self.voice_record(&row)));
        Ok(match *call {
            Call::Level { voice } => self.level_line(VoiceId(voice)),
            Call::Position { voice } => self.position_line(VoiceId(voice)),
            Call::Voice { voice } => voice_or_dash(self.voice(VoiceId(voice))),
            Call::VoiceAt { place } => voice_or_dash(self.engine.voice_rows().nth(place as usize)),
            Call::Voices {} => row("voices", self.engine.voice_rows().map(|voice| voice.id.0)),
            Call::Steals {} => row(&self.steals_line(), self.records()),
            Call::Edges {} => self.edges_line(),
            Call::Order {} => self.order_line(),
            Call::Sources { node } => self.sources_line(NodeId::numbered(node)),
            Call::Clock {} => self.clock_line(),
            Call::Page { length } => self.page_lines(length.0 as usize)?,
            Call::State {} => self.state(),
            _ => unreachable!("{call:?} does not only read"),
        })
    }

    fn level_line(&self, voice: VoiceId) -> String {
        format!("level {}", or_dash(self.engine.voice_level(voice).map(hex32)))
    }

    fn position_line(&self, voice: VoiceId) -> String {
        let fade = self.voice(voice).and_then(|row| row.fade);
        format!("position {}", or_dash(fade.map(|(node, ..)| self.graph().fade_position(node))))
    }

    /// The records that the store holds: the newest ones.
    fn records(&self) -> impl Iterator<Item = String> {
        let all = self.engine.steals();
        all[all.len().saturating_sub(limits::RECORDS)..].iter().map(words::steal)
    }

    fn steals_line(&self) -> String {
        format!("steals {}", self.engine.steals().len())
    }

    fn edges_line(&self) -> String {
        let edges = self.graph().all_edges().iter();
        row("edges", edges.flat_map(|edge| [edge.from.number(), edge.to.number(), edge.to_input]))
    }

    fn order_line(&self) -> String {
        row("order", ids(self.graph().processing_order()))
    }

    fn sources_line(&self, node: NodeId) -> String {
        let feeding = self.graph().all_edges().iter().filter(|edge| edge.to == node);
        let mut sources: Vec<(usize, usize)> = feeding.map(|edge| (edge.to_input, edge.from.number())).collect();
        sources.sort();
        row("sources", sources.into_iter().flat_map(|(port, source)| [port, source]))
    }

    fn clock_line(&self) -> String {
        format!("clock {}", self.engine.sample_offset())
    }

    /// The whole state, a line for each part.
    fn state(&mut self) -> String {
        let mut lines = vec!["state".to_string(), self.clock_line()];
        lines.push(format!("prepared {}", u8::from(!self.graph().is_dirty())));
        lines.push(format!("sink {}", or_dash(self.graph().sink_node().map(NodeId::number))));
        lines.extend([self.edges_line(), self.order_line()]);
        lines.extend(self.node_lines());
        lines.extend(self.engine.voice_rows().map(|voice| self.voice_line(&voice)));
        lines.push(row("tracked", self.tracked().iter().map(|voice| voice.0)));
        lines.extend(self.pending().map(event_line));
        lines.push(self.steals_line());
        lines.extend(self.records().map(|record| format!("steal {record}")));
        lines.push(row("next", [self.graph().next_number(), self.voices_given()]));
        lines.push("end".to_string());
        lines.join("\n")
    }

    fn node_lines(&mut self) -> Vec<String> {
        let mut owners = HashMap::new();
        for voice in self.engine.voice_rows() {
            owners.extend(nodes_of(&voice).into_iter().map(|node| (node, voice.id.0)));
        }
        let live = self.graph().live_nodes();
        live.into_iter().map(|id| self.node_line(id, owners.get(&id).copied().unwrap_or(0))).collect()
    }

    fn node_line(&mut self, id: NodeId, owner: u64) -> String {
        let spec = self.graph().node_spec(id).expect("the node is live");
        let required: u64 = spec.inputs.iter().enumerate().map(|(p, port)| u64::from(port.required) << p).sum();
        let (kind, ports) = (name_word(&name::bytes(spec.name)), spec.inputs.len());
        assert_eq!(owner == 0, self.parts.get(&id).is_some_and(|part| part.is_hosts), "the owner of {}", id.number());
        let told = self.told(id);
        // a bus counts the noise sequence of its voices; nothing spawns on a voice's node
        let noise = if owner == 0 { self.engine.noise_sequence(id) } else { 0 };
        format!("node {} {owner} {kind} {ports} {required} {told} {noise}", id.number())
    }

    /// What a node takes, its done flag, its level and its last order. A fade, a pan and its constant take no order and
    /// have no report in the store; the Rust has no such records to be asked.
    fn told(&mut self, id: NodeId) -> String {
        let Some(part) = self.parts.get(&id) else {
            return format!("0 0 {} -", hex32(0.0));
        };
        let takes = u8::from(part.takes_values) + 2 * u8::from(part.takes_glides);
        let (done, last) = {
            let state = part.handle.state();
            (u8::from(state.done), order_words(state.orders.last()))
        };
        let level = self.engine.node_level(id).expect("the node is live");
        format!("{takes} {done} {} {last}", hex32(level))
    }
}
