//! What scripts reach, counted while they are played on the Rust.

mod before;
mod events;
mod keyboards;
mod rows;
mod seals;
mod spawns;

use std::collections::BTreeMap;
use std::fmt;

use microsynth::engine::Engine;
use microsynth::graph::Edge;
use microsynth::node::NodeId;
use microsynth::scheduler::EventAction;
use replay::orders::event_of;
use replay::player::{LIST, list_length};
use replay::script::{Call, Definition};
use replay::seal::Profile;
use scripted::limits;

pub use before::Before;
pub use spawns::Spawn;

use self::keyboards::Keyboards;
use self::seals::{NEVER, Seals};
use crate::writer::Answer;

/// The rows of a value or a glide, and of an event, by outcome.
const ORDERED: [&str; 4] = [
    "value or glide applied",
    "value or glide: no such voice",
    "value or glide: no such parameter",
    "value or glide: node takes none of that sort",
];
const HAPPENED: [&str; 4] =
    ["event applied", "event: no such voice", "event: no such parameter", "event: node takes none of that sort"];

/// How often each row was reached.
#[derive(Default)]
pub struct Reach {
    pub scripts: usize,
    pub calls: usize,
    pub states: usize,
    counts: BTreeMap<&'static str, usize>,
    /// How often each sort of entry gave this refusal, or 0 for none.
    answers: BTreeMap<(u8, u64), usize>,
    /// The refusals in a row just now.
    row: usize,
    keyboards: Keyboards,
    seals: Seals,
    /// The calls on sealed boards, and of these the spawns that the seal left open and the turns that served a wish.
    pub sealed_calls: usize,
    pub open_spawns: usize,
    pub open_turns: usize,
}

/// A call, what it answered, and the store before and after it.
pub struct Seen<'a> {
    pub sort: u8,
    pub before: &'a Before,
    pub call: &'a Call,
    pub answer: &'a Answer,
    pub engine: &'a Engine,
    /// What a spawn was asked for.
    pub spawn: Option<Spawn<'a>>,
}

impl Reach {
    fn hit(&mut self, row: &'static str) {
        *self.counts.entry(row).or_default() += 1;
    }

    fn hit_if(&mut self, row: &'static str, reached: bool) {
        if reached {
            self.hit(row);
        }
    }

    /// Adds what another script reached.
    pub fn add(&mut self, other: Reach) {
        self.scripts += other.scripts;
        self.calls += other.calls;
        self.states += other.states;
        self.sealed_calls += other.sealed_calls;
        self.open_spawns += other.open_spawns;
        self.open_turns += other.open_turns;
        for (row, count) in other.counts {
            *self.counts.entry(row).or_default() += count;
        }
        for (answer, count) in other.answers {
            *self.answers.entry(answer).or_default() += count;
        }
    }

    /// How much this adds to what the other reaches, where each row and each answer counts up to `most` times.
    pub fn adds(&self, other: &Reach, most: usize) -> usize {
        let gain = |own: usize, had: Option<&usize>| own.min(most.saturating_sub(had.copied().unwrap_or(0)));
        let rows = self.counts.iter().map(|(row, &own)| gain(own, other.counts.get(row)));
        rows.chain(self.answers.iter().map(|(answer, &own)| gain(own, other.answers.get(answer)))).sum()
    }

    /// The rows that nothing reached.
    pub fn missed(&self) -> Vec<&'static str> {
        let rows = rows::PROFILES.iter().flat_map(|(_, rows)| rows.iter().copied());
        rows.filter(|row| !self.counts.contains_key(row)).collect()
    }

    /// How often a spawn that a seal left open, or a turn on a sealed board, was refused with 7. It must be 0.
    pub fn sevens(&self) -> usize {
        NEVER.iter().filter_map(|row| self.counts.get(row)).sum()
    }

    /// Notes a call; the slots are as they were before it.
    pub fn note(&mut self, seen: &Seen, slots: &[Definition]) {
        self.calls += 1;
        self.note_answer(seen);
        self.note_board(seen, slots);
        if let Some(spawn) = &seen.spawn {
            self.note_spawn(seen, spawn);
        }
        match seen.call {
            Call::State {} => self.states += 1,
            Call::SetSink { .. } => self.hit_if("sink set", seen.before.prepared && seen.answer.is("done")),
            Call::Disconnect { .. } => {
                let is_empty = seen.answer.is("done") && seen.engine.graph().all_edges().len() == seen.before.edges;
                self.hit_if("disconnect of a port without an edge", seen.before.prepared && is_empty);
            }
            Call::RemoveNode { node } if seen.answer.is("done") => {
                let gone = Some(NodeId::numbered(*node));
                self.hit_if("sink removed", seen.before.prepared && seen.before.sink == gone);
                self.hit_if("bus removed under voices", seen.before.voices.iter().any(|voice| voice.bus == gone));
            }
            Call::AddNode { .. } => {
                self.hit_if("512 nodes: node refused", seen.answer.of("refused") == Some(7));
                self.hit_if("node ids used up: node refused", seen.answer.of("refused") == Some(8));
                self.hit_if("last node id given out", seen.answer.of("node") == Some(u32::MAX.into()));
            }
            Call::Connect { to, port, .. } => self.note_connect(seen, (*to, *port)),
            Call::Schedule { time, voice, action, name, .. } => self.note_event(seen, *time, *voice, *action, name),
            Call::Clear {} => self.note_clearing(seen),
            Call::Render {} => self.note_render(seen),
            Call::RenderLent { length, .. } => self.note_lent(seen, list_length(*length)),
            Call::Value { .. } | Call::SetGlide { .. } => {
                let number = seen.answer.of("outcome").expect("an outcome");
                self.hit(ORDERED[number as usize]);
            }
            Call::Free { .. } => {
                self.hit(if seen.answer.of("outcome") == Some(0) { "free applied" } else { "free: no such voice" });
            }
            Call::Report { done, samples, .. } => self.note_report(seen, *done, &samples.0),
            Call::ReportRepeated { done, samples, .. } => self.note_report(seen, *done, &[samples.sample]),
            Call::Level { voice } => self.note_level(seen, *voice),
            Call::Order {} => self.note_order(seen),
            Call::Page { length } => self.note_page(seen, length.0),
            Call::Make { .. } | Call::MakeWithTable { .. } if seen.answer.is("made") => {
                self.keyboards = Keyboards::default();
                self.note_made();
            }
            Call::MakeConsole { block, keyboards, .. } => self.note_console(seen, *block, *keyboards),
            Call::Seal { bus, ports, nodes, edges, def_nodes, def_edges } => {
                let (bus, ports, nodes, edges) = (*bus, *ports, *nodes, *edges);
                let profile = Profile { bus, ports, nodes, edges, def_nodes: *def_nodes, def_edges: *def_edges };
                self.note_sealing(seen, profile);
            }
            Call::Wish { keyboard, managed, .. } => self.note_wish(seen, *keyboard, *managed != 0),
            Call::Turn {} => self.note_turn(seen),
            _ => {}
        }
    }

    /// A script ends so.
    pub fn note_end(&mut self, how: usize) {
        self.hit(rows::MALFORMED[how]);
    }

    fn note_answer(&mut self, seen: &Seen) {
        let refused = seen.answer.of("refused");
        *self.answers.entry((seen.sort, refused.unwrap_or(0))).or_default() += 1;
        self.row = if refused.is_some() { self.row + 1 } else { 0 };
        self.hit_if("ten in a row", self.row == 10);
        self.hit_if("twenty in a row", self.row == 20);
    }

    fn note_connect(&mut self, seen: &Seen, place: (u32, u32)) {
        let full = seen.before.edges == limits::EDGES;
        self.hit_if("1,024 edges: edge refused", full && seen.answer.of("refused") == Some(7));
        if seen.answer.is("done") {
            let is_replaced = seen.engine.graph().all_edges().len() == seen.before.edges;
            self.hit_if("edge replaced", seen.before.prepared && is_replaced);
            self.hit_if("1,024 edges: edge replaced", full);
            if let Some(voice) = seen.before.voices.iter().find(|voice| voice.feeds == Some(place)) {
                let faded = voice.fade.is_some();
                self.hit(if faded {
                    "host connection takes a fade's port"
                } else {
                    "host connection takes a voice's port"
                });
            }
        }
    }

    fn note_event(&mut self, seen: &Seen, time: u64, voice: u64, action: u8, name: &[u8]) {
        if seen.answer.of("refused") == Some(7) {
            return self.hit("256 events: event refused");
        }
        let clock = seen.before.clock;
        let equal = seen.before.waiting.iter().filter(|event| event.time == time).count();
        self.hit_if("in the past", time < clock);
        self.hit_if("at the clock", time == clock);
        self.hit_if("at the deadline", Some(time) == clock.checked_add(seen.engine.context().block_size as u64));
        self.hit_if("at 2^64 - 1", time == u64::MAX);
        self.hit_if("at the time of another", equal > 0);
        self.hit_if("for a voice not yet let in", voice >= seen.engine.scheduler().next_voice().0);
        self.hit_if("with a name of 0 or more than 16 bytes", action < 2 && !limits::is_name(name));
        let new = event_of(seen.call).expect("the call schedules an event");
        self.note_replacing(&new, &seen.before.waiting, seen.engine.scheduler().len());
    }

    fn note_clearing(&mut self, seen: &Seen) {
        let gone = seen.before.voices.iter().filter(|v| !seen.engine.voice_rows().any(|row| row.id.0 == v.id));
        for voice in gone {
            match voice.fade.filter(|fade| fade.ended) {
                Some(fade) => {
                    self.hit("fade ended");
                    self.hit_if("fade ended in the last block", fade.is_fresh);
                }
                None if seen.before.done.contains(&voice.output) => self.hit("output done itself"),
                None => self.hit(rule_row(voice.output_kind)),
            }
        }
        let done = |voice: &before::Voice| voice.nodes.iter().any(|id| seen.before.done.contains(id));
        let none = seen.answer.of("removed") == Some(0);
        self.hit_if("none, though a node of some voice is done", none && seen.before.voices.iter().any(done));
    }

    /// A render with a list of this length.
    fn note_lent(&mut self, seen: &Seen, length: usize) {
        self.hit_if("more than 256 entries lent", length > LIST && !seen.answer.is("refused"));
        if length >= LIST {
            return self.note_render(seen);
        }
        self.hit(match seen.answer.of("refused") {
            Some(15) => "fewer than 256 entries lent at the clock's end",
            _ if seen.before.due.is_empty() => "no event due, and fewer than 256 entries lent",
            _ => "events due, and fewer than 256 entries lent",
        });
    }

    /// The outcomes in a render's line.
    fn note_outcomes(&mut self, seen: &Seen) {
        let outcomes: Vec<usize> = seen.answer.outcomes().collect();
        for &outcome in &outcomes {
            self.hit(HAPPENED[outcome]);
        }
        self.hit_if("outcomes though the prepare fails", seen.answer.of("silent").is_some() && !outcomes.is_empty());
        let mut freed = vec![];
        for (action, outcome) in seen.before.due.iter().zip(outcomes) {
            match action {
                EventAction::FreeSynth { voice } if outcome == 0 => freed.push(*voice),
                EventAction::SetParam { voice, .. }
                | EventAction::SetGate { voice, .. }
                | EventAction::SetParamGlide { voice, .. }
                | EventAction::FreeSynth { voice } => {
                    self.hit_if("event for a voice freed earlier in its render", freed.contains(voice));
                }
            }
        }
    }

    fn note_render(&mut self, seen: &Seen) {
        if !seen.answer.is("refused") {
            self.note_outcomes(seen);
        }
        if seen.answer.is("refused") {
            return self.hit("render refused at the clock's end");
        }
        let sounding = seen.answer.is("sounding");
        let mut frees = false;
        for action in &seen.before.due {
            match action {
                EventAction::SetGate { voice, .. } => {
                    self.hit("gate");
                    let has_gate = seen.before.voice(voice.0).is_some_and(|voice| voice.has_gate);
                    self.hit_if("gate of a voice that has one", has_gate);
                }
                EventAction::FreeSynth { voice } => {
                    frees = true;
                    let known = seen.before.voice(voice.0).is_some();
                    self.hit(if known { "free of a voice" } else { "free of no voice" });
                }
                _ => self.hit("value or glide"),
            }
        }
        self.hit_if("ten and more in one render", seen.before.due.len() >= 10);
        self.hit_if("sounding", sounding);
        self.hit_if("sounding: a free's prepare heals the graph", sounding && !seen.before.prepared && frees);
        let full = seen.before.nodes == limits::NODES && seen.before.edges == limits::EDGES;
        self.hit_if("512 nodes and 1,024 edges: sounding render", sounding && full);
        match seen.answer.of("silent") {
            Some(13) => self.hit("silent: a free's prepare gives 13"),
            Some(_) => self.hit("silent: a free's prepare gives 14"),
            None if sounding => {}
            None => {
                let unprepared = seen.engine.graph().is_dirty();
                self.hit(if unprepared { "silent: unprepared" } else { "silent: no sink" });
            }
        }
    }

    /// The order of a prepared graph with all the nodes that it may have.
    fn note_order(&mut self, seen: &Seen) {
        if !seen.before.prepared || seen.before.nodes != limits::NODES {
            return;
        }
        let edges = seen.engine.graph().all_edges();
        let is_link = |edge: &Edge| edge.to.number() == edge.from.number() + 1;
        let twice = |pair: &[Edge]| pair[0].from == pair[1].from && pair[0].to == pair[1].to;
        self.hit_if("512 nodes and 1,024 edges: order read", edges.len() == limits::EDGES);
        let is_chain = edges.len() + 1 == limits::NODES && edges.iter().all(is_link);
        self.hit_if("512 nodes in one chain: order read", is_chain);
        let doubled = edges.windows(2).last().is_some_and(twice);
        self.hit_if("512 nodes, the last two edges between the same nodes: order read", doubled);
    }

    fn note_report(&mut self, seen: &Seen, done: u8, samples: &[f32]) {
        if !seen.answer.is("done") {
            return;
        }
        self.hit_if("sample NaN", samples.iter().any(|x| x.is_nan()));
        self.hit_if("sample infinite", samples.iter().any(|x| x.is_infinite()));
        self.hit_if("sample subnormal", samples.iter().any(|x| x.is_subnormal()));
        self.hit_if("sample -0", samples.iter().any(|x| x.to_bits() == (-0.0f32).to_bits()));
        let were = seen.before.done.len();
        let are = seen.engine.graph().live_nodes().iter().filter(|&&id| seen.engine.graph().node_is_done(id)).count();
        self.hit_if("done flag set", done != 0 && are > were);
        self.hit_if("done flag cleared", done == 0 && are < were);
    }

    fn note_level(&mut self, seen: &Seen, voice: u64) {
        let level = seen.engine.voice_level(microsynth::scheduler::VoiceId(voice));
        self.hit(match level {
            None if seen.before.voice(voice).is_none() => "level none: no such voice",
            None => "level none: just born",
            Some(x) if x.is_nan() => "level NaN",
            Some(x) if x.is_infinite() => "level infinite",
            Some(x) if x.is_subnormal() => "level subnormal",
            Some(0.0) => "level +0",
            Some(_) => "level normal",
        });
    }

    fn note_page(&mut self, seen: &Seen, length: u32) {
        match seen.answer.of("page") {
            Some(written) if written == u64::from(length) => self.hit("buffer just long enough"),
            Some(_) => self.hit("buffer longer"),
            None => self.hit("buffer too short"),
        }
        for line in seen.answer.lines() {
            self.note_page_line(line);
        }
    }

    /// A voice's line: id, age, port or `-`, state.
    fn note_page_line(&mut self, line: &str) {
        let words: Vec<&str> = line.split(' ').collect();
        let [_, _, port, state] = words[..] else { return };
        match (state, port) {
            ("held", "-") => self.hit("tracked voice without a port"),
            ("held", _) => self.hit("tracked voice with its port"),
            ("fading", "-") => self.hit("fade without a port"),
            ("fading", _) => self.hit("fade with its port"),
            ("loose", "-") => self.hit("loose voice without a port"),
            ("loose", _) => self.hit("loose voice with its port"),
            _ => {}
        }
    }
}

/// The row of a voice that was silent by the rule of its output's kind.
fn rule_row(kind: &str) -> &'static str {
    match kind {
        "Mul" => "output silent by its rule: Mul",
        "Div" => "output silent by its rule: Div",
        "Add" => "output silent by its rule: Add",
        "Sub" => "output silent by its rule: Sub",
        "FmOp" => "output silent by its rule: FmOp",
        "Paf" => "output silent by its rule: Paf",
        "Neg" => "output silent by its rule: Neg",
        _ => "output silent by its rule: one of the 27 names",
    }
}

/// A table of the profiles, and one of the entries.
impl fmt::Display for Reach {
    fn fmt(&self, f: &mut fmt::Formatter) -> fmt::Result {
        writeln!(f, "| Profile | Reached | Times |\n|---|---|---|")?;
        for (profile, rows) in rows::PROFILES {
            for row in *rows {
                writeln!(f, "| {profile} | {row} | {} |", self.counts.get(row).unwrap_or(&0))?;
            }
        }
        for row in NEVER {
            writeln!(f, "| Never | {row} | {} |", self.counts.get(row).unwrap_or(&0))?;
        }
        writeln!(f, "\n| Entry | Times | Refused |\n|---|---|---|")?;
        for (sort, entry) in (1..).zip(rows::ENTRIES).filter(|(_, entry)| !entry.is_empty()) {
            let answers = self.answers.range((sort, 0)..=(sort, u64::MAX));
            let times: usize = answers.clone().map(|(_, count)| count).sum();
            let refused = answers.filter(|((_, number), _)| *number > 0);
            let refused: Vec<String> = refused.map(|((_, number), count)| format!("{number}: {count}")).collect();
            writeln!(f, "| {entry} | {times} | {} |", refused.join(", "))?;
        }
        Ok(())
    }
}
