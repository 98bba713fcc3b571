//! A script in the making: each call is written and also played on the Rust, so that the next one can be aimed. Only
//! the script is compared.

use std::collections::{HashMap, VecDeque};

use microsynth::engine::{Engine, VoiceRow};
use microsynth::node::NodeId;
use microsynth::scheduler::{Event, EventAction};
use replay::player::Player;
use replay::script::{Call, Definition, Length, Repeated};
use replay::seal::Profile;
use seeded::rng::Rng;

use crate::reach::{Before, Reach, Seen, Spawn};
use crate::script::Script;

/// A host node that lives.
#[derive(Clone, Copy)]
pub struct Host {
    pub id: u32,
    pub ports: u32,
}

/// What a call answered, line by line.
pub struct Answer(String);

impl Answer {
    pub fn lines(&self) -> impl Iterator<Item = &str> {
        self.0.lines()
    }

    fn words(&self) -> impl Iterator<Item = &str> {
        self.lines().next().unwrap_or_default().split(' ')
    }

    /// Whether its first line begins with the word.
    pub fn is(&self, word: &str) -> bool {
        self.words().next() == Some(word)
    }

    /// The number that follows the line's word.
    pub fn number(&self) -> Option<u64> {
        self.words().nth(1)?.parse().ok()
    }

    /// The voice that a turn let in.
    pub fn served_voice(&self) -> Option<u64> {
        let words: Vec<&str> = self.words().collect();
        match words[..] {
            ["served", _, "voice", id] => id.parse().ok(),
            _ => None,
        }
    }

    /// The number that the spawn of a turn was refused with.
    pub fn served_refusal(&self) -> Option<u64> {
        let words: Vec<&str> = self.words().collect();
        match words[..] {
            ["served", _, "refused", number] => number.parse().ok(),
            _ => None,
        }
    }

    /// The outcomes of the events that a render took: the digits behind `took` and their count.
    pub fn outcomes(&self) -> impl Iterator<Item = usize> {
        let digits = self.words().skip_while(|&word| word != "took").nth(2).unwrap_or_default();
        digits.as_bytes().chunks(2).map(|pair| usize::from(pair[1] - b'0'))
    }

    /// The number after this word.
    pub fn of(&self, word: &str) -> Option<u64> {
        self.number().filter(|_| self.is(word))
    }
}

pub struct Writer {
    pub rng: Rng,
    pub reach: Reach,
    /// The host nodes that live, by rising id.
    pub hosts: Vec<Host>,
    /// One report in so many has the done flag.
    pub done_once_in: usize,
    pub slots: Vec<Definition>,
    /// The definitions of the wishes that wait, by keyboard.
    pub wishes: Vec<VecDeque<Definition>>,
    /// By what the store is sealed, if it is.
    pub seal: Option<Profile>,
    player: Player,
    script: Vec<u8>,
    calls: usize,
    answered: usize,
    /// The number of calls at which the state is due.
    state_at: usize,
    /// The channels of each node that was made in this store, but for fades, pans and constants.
    channels: HashMap<u32, u8>,
}

impl Writer {
    pub fn new(rng: Rng) -> Writer {
        let empty = Definition { nodes: vec![], edges: vec![], params: vec![], output: 0 };
        Writer {
            rng,
            reach: Reach::default(),
            hosts: vec![],
            done_once_in: 8,
            slots: vec![empty; 16],
            wishes: vec![],
            seal: None,
            player: Player::default(),
            script: vec![],
            calls: 0,
            answered: 0,
            state_at: 0,
            channels: HashMap::new(),
        }
    }

    pub fn finish(mut self) -> Script {
        self.reach.scripts += 1;
        Script { bytes: self.script, answered: self.answered, reach: self.reach }
    }

    /// Ends the script with what is no entry: nothing of it is played.
    pub fn break_off(&mut self) {
        let start = self.script.len();
        let how = self.rng.below(4);
        match how {
            0 => self.script.push(*self.rng.pick(&[0, 36, 255])),
            1 => Call::Page { length: Length(4097) }.encode(&mut self.script),
            2 => {
                let samples = Repeated { count: 513, sample: 0.0 };
                Call::ReportRepeated { node: 0, channels: 1, done: 0, samples }.encode(&mut self.script);
            }
            _ => {
                Call::SetCounters { clock: 0, voices: 0, noise: 0, node: 0 }.encode(&mut self.script);
                self.script.truncate(self.rng.within(start + 1, self.script.len() - 1));
            }
        }
        self.reach.note_end(how);
    }

    pub fn calls(&self) -> usize {
        self.calls
    }

    pub fn put(&mut self, call: Call) -> Answer {
        self.put_before(call, &[])
    }

    /// Puts a call that these follow.
    pub fn put_before(&mut self, call: Call, upcoming: &[Call]) -> Answer {
        let start = self.script.len();
        call.encode(&mut self.script);
        let sort = self.script[start];
        self.calls += 1;
        let before = Before::of(self.player.store(), &call);
        let lines = self.player.play(&call, upcoming);
        self.answered += lines.len();
        let answer = Answer(lines);
        let (engine, spawn) = (self.player.store().engine(), Spawn::of(&call, &self.slots));
        self.reach.note(&Seen { sort, before: &before, call: &call, answer: &answer, engine, spawn }, &self.slots);
        self.learn(&call, &answer);
        answer
    }

    /// Puts the state once in 15 to 35 calls, and less often where it is long.
    pub fn state_if_due(&mut self) {
        if self.calls >= self.state_at {
            self.state();
        }
    }

    pub fn state(&mut self) {
        self.put(Call::State {});
        let rows = self.engine().graph().all_edges().len() + self.pending().count();
        self.state_at = self.calls + self.rng.within(15, 35) + rows / 4;
    }

    fn learn(&mut self, call: &Call, answer: &Answer) {
        match call {
            Call::Make { .. } | Call::MakeWithTable { .. } if answer.is("made") => self.learn_store(0),
            Call::MakeConsole { keyboards, .. } if answer.is("made") => self.learn_store(*keyboards as usize),
            Call::Wish { slot, keyboard, .. } if answer.is("waits") => {
                let definition = self.slots[usize::from(*slot) % 16].clone();
                self.wishes[*keyboard as usize].push_back(definition);
            }
            Call::Seal { bus, ports, nodes, edges, def_nodes, def_edges } if answer.is("sealed") => {
                let (bus, ports, nodes, edges) = (*bus, *ports, *nodes, *edges);
                self.seal = Some(Profile { bus, ports, nodes, edges, def_nodes: *def_nodes, def_edges: *def_edges });
            }
            Call::Turn {} => {
                if let Some(keyboard) = answer.of("served") {
                    let definition = self.wishes[keyboard as usize].pop_front().expect("a wish that is served waited");
                    if let Some(id) = answer.served_voice() {
                        self.learn_voice(id, &definition);
                    }
                }
            }
            Call::AddNode { ports, channels, .. } => {
                if let Some(id) = answer.of("node") {
                    self.hosts.push(Host { id: id as u32, ports: *ports });
                    self.channels.insert(id as u32, *channels);
                }
            }
            Call::RemoveNode { node } if answer.is("done") => self.hosts.retain(|host| host.id != *node),
            Call::Keep { slot, definition } => self.slots[usize::from(*slot) % 16] = definition.clone(),
            Call::SpawnManagedPanned { slot, .. }
            | Call::SpawnPanned { slot, .. }
            | Call::SpawnManaged { slot, .. }
            | Call::Spawn { slot, .. } => {
                if let Some(id) = answer.of("voice") {
                    let definition = self.slots[usize::from(*slot) % 16].clone();
                    self.learn_voice(id, &definition);
                }
            }
            _ => {}
        }
    }

    /// A new store with so many keyboards.
    fn learn_store(&mut self, keyboards: usize) {
        self.hosts.clear();
        self.channels.clear();
        self.wishes = vec![VecDeque::new(); keyboards];
        self.seal = None;
    }

    fn learn_voice(&mut self, id: u64, definition: &Definition) {
        let row = self.player.store().engine().voice_rows().find(|row| row.id.0 == id).expect("the voice was let in");
        for (node, made) in row.synth.node_ids().iter().zip(&definition.nodes) {
            self.channels.insert(node.number() as u32, made.channels);
        }
    }

    pub fn engine(&self) -> &Engine {
        self.player.store().engine()
    }

    /// The events that wait.
    pub fn pending(&self) -> impl Iterator<Item = &Event> {
        self.player.store().pending()
    }

    pub fn clock(&self) -> u64 {
        self.engine().sample_offset()
    }

    pub fn block(&self) -> usize {
        self.engine().context().block_size
    }

    /// The ids of the voices in order.
    pub fn voices(&self) -> Vec<u64> {
        self.engine().voice_rows().map(|row| row.id.0).collect()
    }

    /// How many voice ids were given out.
    pub fn voice_ids(&self) -> u64 {
        self.engine().scheduler().next_voice().0.wrapping_sub(1)
    }

    pub fn live_nodes(&self) -> usize {
        self.engine().graph().live_nodes().len()
    }

    pub fn edges(&self) -> usize {
        self.engine().graph().all_edges().len()
    }

    /// The nodes that take a report.
    pub fn reportable(&self) -> Vec<u32> {
        let voices = self.engine().voice_rows().flat_map(|row| row.synth.node_ids().to_vec());
        self.hosts.iter().map(|host| host.id).chain(voices.map(|id| id.number() as u32)).collect()
    }

    /// Whether a node of this id takes a report, or did before it was removed.
    pub fn has_lived(&self, node: u32) -> bool {
        self.channels.contains_key(&node)
    }

    /// The channels of a node that takes a report.
    pub fn channels_of(&self, node: u32) -> u8 {
        self.channels[&node]
    }

    /// What a node wrote last; none before its first prepare.
    pub fn last_block(&self, node: u32) -> Option<Vec<f32>> {
        let buffer = self.engine().graph().node_output(NodeId::numbered(node))?;
        let channels = (0..buffer.num_channels()).map(|channel| buffer.channel(channel).samples());
        let block: Vec<f32> = channels.flatten().copied().collect();
        (block.len() == usize::from(self.channels_of(node)) * self.block()).then_some(block)
    }

    /// Whether the next render sounds for certain: where a free is due it depends on a prepare.
    pub fn will_sound(&self) -> bool {
        let Some(deadline) = self.clock().checked_add(self.block() as u64) else {
            return false;
        };
        let graph = self.engine().graph();
        let mut due = self.pending().take_while(|event| event.time < deadline);
        !graph.is_dirty()
            && graph.sink_node().is_some()
            && !due.any(|event| matches!(event.action, EventAction::FreeSynth { .. }))
    }
}

/// The node by which a voice feeds its bus.
pub fn feeder(row: &VoiceRow) -> NodeId {
    match (row.fade, row.pan) {
        (Some((fade, _, _)), _) => fade,
        (None, Some((pan, _))) => pan,
        (None, None) => row.synth.output_node(),
    }
}

/// The bus of a voice and the port of it that the voice feeds.
pub fn fed_port(engine: &Engine, row: &VoiceRow) -> Option<(u32, u32)> {
    let bus = row.bus?;
    let port = engine.graph().input_slot_from(feeder(row), bus)?;
    Some((bus.number() as u32, port as u32))
}
