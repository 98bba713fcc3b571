//! What seals reach: which sealings are accepted and why others are not, what a seal closes, and what it leaves open.

use std::collections::HashSet;

use microsynth::node::NodeId;
use microsynth::voice::{BudgetScope, StealPolicy, VoiceAllocator};
use replay::script::{Call, Definition};
use replay::seal::Profile;
use scripted::limits;

use super::spawns::has_all;
use super::{Reach, Seen};

/// The seal of the store, and whether the store before it had one.
#[derive(Default)]
pub struct Seals {
    seal: Option<Profile>,
    was_sealed: bool,
}

/// The rows that must not be reached: "a spawn then never meets refusal 7, in any sequence".
pub const NEVER: [&str; 2] = ["open spawn refused with 7", "turn on a sealed board refused with 7"];

/// What a spawn, or the spawn of a wish, asks for.
struct Asked<'a> {
    is_managed: bool,
    bus: u32,
    rank: u32,
    def: &'a Definition,
}

/// The slot, and whether it is managed, the bus and the rank.
fn asked_of(call: &Call) -> Option<(u8, bool, u32, u32)> {
    match *call {
        Call::SpawnManagedPanned { slot, bus, rank, .. } | Call::SpawnManaged { slot, bus, rank } => {
            Some((slot, true, bus, rank))
        }
        Call::SpawnPanned { slot, bus, rank, .. } | Call::Spawn { slot, bus, rank } => Some((slot, false, bus, rank)),
        Call::Wish { slot, managed, bus, rank, .. } => Some((slot, managed != 0, bus, rank)),
        _ => None,
    }
}

/// The edges of a definition that count: of those to one port the last.
fn counted(def: &Definition) -> u64 {
    def.edges.iter().map(|edge| (edge.to, edge.port)).collect::<HashSet<_>>().len() as u64
}

fn given(def: &Definition) -> (u64, u64) {
    (def.nodes.len() as u64, def.edges.len() as u64)
}

/// Whether a definition is outside the limits, but for its names and cycles.
fn is_outside(def: &Definition) -> bool {
    let (nodes, edges) = (def.nodes.len(), def.edges.len());
    !(1..=limits::DEF_NODES).contains(&nodes) || edges > limits::DEF_EDGES || !has_all(def)
}

/// H + (P + n) × (D + 3) and G + (P + n) × (E + 4), or what is above every bound.
fn sums(profile: &Profile, n: u64) -> (u64, u64) {
    let voices = profile.ports.saturating_add(n);
    let sum = |base: u64, each: u64, spare: u64| base.saturating_add(voices.saturating_mul(each.saturating_add(spare)));
    (sum(profile.nodes, profile.def_nodes, 3), sum(profile.edges, profile.def_edges, 4))
}

impl Reach {
    /// A new store, which no seal closes.
    pub(super) fn note_made(&mut self) {
        self.seals = Seals { seal: None, was_sealed: self.seals.seal.is_some() };
    }

    pub(super) fn note_sealing(&mut self, seen: &Seen, profile: Profile) {
        match seen.answer.of("refused") {
            None => {
                self.note_sealed(&profile);
                self.hit_if("accepted: the graph is prepared", seen.before.prepared);
                self.seals.seal = Some(profile);
            }
            Some(28) => self.hit("28: sealing again"),
            Some(_) => self.note_unsealed(seen, &profile),
        }
    }

    fn note_sealed(&mut self, profile: &Profile) {
        self.hit("sealing accepted");
        let (nodes, edges) = sums(profile, 1);
        self.hit_if("accepted: the nodes fit exactly", nodes == limits::NODES as u64);
        self.hit_if("accepted: the edges fit exactly", edges == limits::EDGES as u64);
        self.hit_if("accepted: one more for D would not fit", nodes + profile.ports + 1 > limits::NODES as u64);
        self.hit_if("accepted: one more for E would not fit", edges + profile.ports + 1 > limits::EDGES as u64);
        self.hit_if("accepted: 2 ports", profile.ports == 2);
        self.hit_if("accepted: 31 ports", profile.ports == 31);
        self.hit_if("accepted: D above 24", profile.def_nodes > limits::DEF_NODES as u64);
        self.hit_if("accepted: E above 48", profile.def_edges > limits::DEF_EDGES as u64);
    }

    /// The row of a sealing that is refused for one reason alone.
    fn note_unsealed(&mut self, seen: &Seen, profile: &Profile) {
        let graph = seen.engine.graph();
        let bus = graph.node_spec(NodeId::numbered(profile.bus));
        let ports = bus.as_ref().map(|spec| spec.inputs.len() as u64);
        let others = [
            (ports.is_none(), "27: no such bus"),
            (ports.is_some_and(|ports| ports != profile.ports), "27: another P"),
            (!profile.has_ports() && profile.ports < 2, "27: fewer than 2 ports"),
            (!profile.has_ports() && profile.ports > 31, "27: more than 31 ports"),
            (graph.live_nodes().len() as u64 != profile.nodes, "27: another H"),
            (graph.all_edges().len() as u64 != profile.edges, "27: another G"),
            (!profile.has_nodes(), nodes_row(profile)),
            (!profile.has_edges(), edges_row(profile)),
            (!seen.before.voices.is_empty(), "27: a voice lives"),
            (self.keyboards.is_waiting(), "27: a wish waits"),
        ];
        let reasons: Vec<&'static str> = others.iter().filter(|(holds, _)| *holds).map(|(_, row)| *row).collect();
        if let [row] = reasons[..] {
            self.hit(row);
        }
    }

    /// A call on a store, sealed or not.
    pub(super) fn note_board(&mut self, seen: &Seen, slots: &[Definition]) {
        let Some(profile) = self.seals.seal else {
            let is_open = self.seals.was_sealed && seen.answer.is("node");
            return self.hit_if("host node added to a store made after a sealed one", is_open);
        };
        self.sealed_calls += 1;
        let asked = asked_of(seen.call).map(|(slot, is_managed, bus, rank)| Asked {
            is_managed,
            bus,
            rank,
            def: &slots[usize::from(slot) % 16],
        });
        let is_wish = matches!(seen.call, Call::Wish { .. });
        match (asked, seen.answer.of("refused")) {
            (Some(asked), Some(28)) => self.note_closed(seen, &profile, &asked, is_wish),
            (Some(_), _) if is_wish => self.hit_if("open wish waits", seen.answer.is("waits")),
            (Some(asked), _) => self.note_open(seen, &profile, &asked),
            (None, Some(28)) => self.note_host_call(seen),
            (None, _) => self.note_others(seen),
        }
    }

    /// A spawn or a wish that the seal closes: for one reason alone, and whatever else is wrong with it.
    fn note_closed(&mut self, seen: &Seen, profile: &Profile, asked: &Asked, is_wish: bool) {
        let (nodes, edges) = given(asked.def);
        let is_near = |n: u64, most: u64| most < u64::MAX && n == most + 1;
        let reasons = [
            (!asked.is_managed, ["28: unmanaged spawn", "28: wish for an unmanaged spawn"]),
            (asked.bus != profile.bus, ["28: spawn on another bus", "28: wish for another bus"]),
            (nodes > profile.def_nodes, ["28: spawn of more than D nodes", "28: wish of more than D nodes"]),
            (edges > profile.def_edges, ["28: spawn of more than E edges", "28: wish of more than E edges"]),
        ];
        let reasons: Vec<&'static str> =
            reasons.iter().filter(|(holds, _)| *holds).map(|(_, rows)| rows[usize::from(is_wish)]).collect();
        if let [row] = reasons[..] {
            self.hit(row);
            self.hit_if("28: one node more than D", is_near(nodes, profile.def_nodes));
            self.hit_if("28: one edge more than E", is_near(edges, profile.def_edges));
            let is_within = edges > profile.def_edges && counted(asked.def) <= profile.def_edges;
            self.hit_if("28: more than E edges, of which E or fewer count", is_within);
        }
        if is_wish {
            let Call::Wish { keyboard, .. } = seen.call else { return };
            self.hit_if("28: wish of a keyboard that there is not", !self.keyboards.has(*keyboard));
            return self.hit_if("28: wish of a keyboard that is full", self.keyboards.is_full(*keyboard));
        }
        self.hit_if("28: though the rank is above 7", asked.rank > 7);
        self.hit_if("28: though the definition is refused", is_outside(asked.def));
        let is_there = seen.engine.graph().node_spec(NodeId::numbered(asked.bus)).is_some();
        self.hit_if("28: spawn on a node that there is not", !is_there);
    }

    /// A spawn that the seal leaves open.
    fn note_open(&mut self, seen: &Seen, profile: &Profile, asked: &Asked) {
        self.open_spawns += 1;
        let is_largest = given(asked.def) == (profile.def_nodes, profile.def_edges);
        self.hit(match seen.answer.of("refused") {
            None => "open spawn let in",
            Some(7) => NEVER[0],
            Some(8) => "open spawn refused with 8",
            Some(9) => "open spawn refused with 9",
            Some(11) => "open spawn refused with 11",
            Some(12) => "open spawn refused with 12",
            Some(_) => "open spawn refused with 26",
        });
        let has_voices = seen.engine.scheduler().next_voice().0 != 0;
        self.hit_if("open spawn refused with 8 for the node ids", seen.answer.of("refused") == Some(8) && has_voices);
        if let (Some(allocator), Some(11)) = (seen.engine.voice_allocator(), seen.answer.of("refused")) {
            self.hit_if(rejected_row(allocator), allocator.budget() > 0);
        }
        if !seen.answer.is("voice") {
            return;
        }
        self.hit_if("open spawn of D nodes and E edges let in", is_largest);
        self.hit_if("open spawn whose edges do not all count let in", counted(asked.def) < given(asked.def).1);
        let voices = seen.engine.voice_rows().count() as u64;
        self.hit_if("open spawn let in: as many voices as ports", voices == profile.ports);
        self.note_fullest(seen, profile, is_largest);
        if let Some(allocator) = seen.engine.voice_allocator() {
            self.hit_if(taken_row(allocator), seen.engine.steals().len() > seen.before.steals);
        }
    }

    /// A board as full as it can be between calls: P voices of D nodes and E edges with their pans, of which all but one fade.
    fn note_fullest(&mut self, seen: &Seen, profile: &Profile, is_largest: bool) {
        let full = sums(profile, 0);
        let (nodes, edges) = (seen.before.nodes as u64 + 1, seen.before.edges as u64 + 1);
        let is_fullest = is_largest && (nodes, edges) == full;
        self.hit_if("open spawn let in on a board as full as it can be", is_fullest);
        let (nodes, edges) = sums(profile, 1);
        self.hit_if("the same where the nodes fit exactly", is_fullest && nodes == limits::NODES as u64);
        self.hit_if("the same where the edges fit exactly", is_fullest && edges == limits::EDGES as u64);
    }

    fn note_host_call(&mut self, seen: &Seen) {
        let lives = |node: u32| seen.engine.graph().node_spec(NodeId::numbered(node)).is_some();
        let (row, is_there) = match *seen.call {
            Call::AddNode { .. } => ("28: host node added", true),
            Call::RemoveNode { node } => ("28: host node removed", lives(node)),
            Call::Connect { from, to, .. } => ("28: edge put", lives(from) && lives(to)),
            Call::Disconnect { to, .. } => ("28: edge taken away", lives(to)),
            Call::SetSink { node } => ("28: sink set", lives(node)),
            _ => return,
        };
        self.hit(if is_there { row } else { "28: host call of a node that there is not" });
    }

    fn note_others(&mut self, seen: &Seen) {
        match seen.call {
            Call::Turn {} => self.note_sealed_turn(seen),
            Call::Clear {} => self.hit_if("sealed: clearing removes voices", seen.answer.number() > Some(0)),
            Call::Free { .. } => self.hit_if("sealed: voice freed", seen.answer.of("outcome") == Some(0)),
            Call::Value { .. } => self.hit_if("sealed: value applied", seen.answer.of("outcome") == Some(0)),
            Call::SetGlide { .. } => self.hit_if("sealed: glide applied", seen.answer.of("outcome") == Some(0)),
            Call::Schedule { .. } => self.hit_if("sealed: event scheduled", seen.answer.is("done")),
            Call::Report { .. } | Call::ReportRepeated { .. } => self.hit_if("sealed: report", seen.answer.is("done")),
            Call::Prepare {} => self.hit_if("sealed: prepare", seen.answer.is("done")),
            Call::Render {} | Call::RenderLent { .. } => {
                self.hit_if("sealed: sounding render", seen.answer.is("sounding"));
                self.hit_if("sealed: events taken", seen.answer.outcomes().next().is_some());
            }
            Call::Page { .. } => self.hit_if("sealed: page", seen.answer.is("page")),
            Call::Keep { .. } => self.hit("sealed: definition kept"),
            Call::SetCounters { .. } => self.hit("sealed: counters set"),
            _ => {}
        }
    }

    fn note_sealed_turn(&mut self, seen: &Seen) {
        if seen.answer.is("empty") {
            return self.hit("sealed: turn that finds no wish");
        }
        self.open_turns += 1;
        self.hit(match seen.answer.served_refusal() {
            None => "sealed: turn that lets a voice in",
            Some(7) => NEVER[1],
            Some(_) => "sealed: turn whose spawn is refused",
        });
    }
}

fn nodes_row(profile: &Profile) -> &'static str {
    match profile.def_nodes {
        n if n > 1 << 31 => "27: a D beyond all bounds",
        _ if sums(profile, 0).0 <= limits::NODES as u64 => {
            "27: the nodes of P voices fit, and those of one more do not"
        }
        _ => "27: the nodes do not fit",
    }
}

fn edges_row(profile: &Profile) -> &'static str {
    match profile.def_edges {
        n if n > 1 << 31 => "27: an E beyond all bounds",
        _ if sums(profile, 0).1 <= limits::EDGES as u64 => {
            "27: the edges of P voices fit, and those of one more do not"
        }
        _ => "27: the edges do not fit",
    }
}

/// The row of a rejection where the budget is not 0: nobody is stolen under that policy.
fn rejected_row(allocator: &VoiceAllocator) -> &'static str {
    match allocator.scope() {
        BudgetScope::Global => "sealed: rejected, global",
        BudgetScope::PerGroup => "sealed: rejected, per group",
    }
}

/// The row of a steal or a cut on a sealed board.
fn taken_row(allocator: &VoiceAllocator) -> &'static str {
    match (allocator.policy(), allocator.scope()) {
        (StealPolicy::Reject, _) => "sealed: steal or reclaim under reject",
        (StealPolicy::Oldest, BudgetScope::Global) => "sealed: steal or reclaim under oldest, global",
        (StealPolicy::Oldest, BudgetScope::PerGroup) => "sealed: steal or reclaim under oldest, per group",
        (StealPolicy::Newest, BudgetScope::Global) => "sealed: steal or reclaim under newest, global",
        (StealPolicy::Newest, BudgetScope::PerGroup) => "sealed: steal or reclaim under newest, per group",
        (StealPolicy::Quietest, BudgetScope::Global) => "sealed: steal or reclaim under quietest, global",
        (StealPolicy::Quietest, BudgetScope::PerGroup) => "sealed: steal or reclaim under quietest, per group",
    }
}
