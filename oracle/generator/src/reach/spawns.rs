//! What spawns reach.

use microsynth::node::NodeId;
use microsynth::voice::{BudgetScope, StealPolicy, VoiceAllocator};
use replay::script::{Call, Definition};
use scripted::limits;

use super::before::Voice;
use super::{Reach, Seen};

/// What a spawn asks for.
pub struct Spawn<'a> {
    pub def: &'a Definition,
    pub bus: NodeId,
    pub pan: f32,
    pub is_managed: bool,
}

impl<'a> Spawn<'a> {
    pub fn of(call: &Call, slots: &'a [Definition]) -> Option<Spawn<'a>> {
        let (slot, bus, pan, is_managed) = match call {
            Call::SpawnManagedPanned { slot, bus, pan, .. } => (slot, bus, *pan, true),
            Call::SpawnPanned { slot, bus, pan, .. } => (slot, bus, *pan, false),
            Call::SpawnManaged { slot, bus, .. } => (slot, bus, 0.0, true),
            Call::Spawn { slot, bus, .. } => (slot, bus, 0.0, false),
            _ => return None,
        };
        Some(Spawn { def: &slots[usize::from(*slot) % 16], bus: NodeId::numbered(*bus), pan, is_managed })
    }
}

impl Reach {
    pub fn note_spawn(&mut self, seen: &Seen, spawn: &Spawn) {
        match seen.answer.of("refused") {
            Some(9) => self.hit(refused_definition(spawn.def)),
            Some(26) => self.hit("refused: a rank above 7"),
            Some(7) => self.note_headroom(seen, spawn),
            Some(8) if seen.engine.scheduler().next_voice().0 == 0 => self.hit("voice ids used up"),
            Some(8) => self.hit("node ids used up: spawn refused"),
            Some(11 | 12) => self.note_managed(seen, spawn),
            Some(_) => {}
            None => {
                self.note_newcomer(seen, spawn);
                self.note_definition(spawn.def);
                self.note_managed(seen, spawn);
            }
        }
    }

    fn note_headroom(&mut self, seen: &Seen, spawn: &Spawn) {
        let (nodes, edges) = headroom(seen, spawn);
        let would_steal = |a: &VoiceAllocator| a.policy() != StealPolicy::Reject && !a.is_empty();
        let steals = spawn.is_managed && seen.engine.voice_allocator().is_some_and(would_steal);
        if seen.before.voices.len() == limits::VOICES {
            self.hit("64 voices: spawn refused");
            self.hit_if("64 voices: refused though a policy would steal", steals);
        } else {
            self.hit_if("spawn refused for one node", nodes == limits::NODES + 1);
            self.hit_if("spawn refused for one edge", edges == limits::EDGES + 1);
        }
    }

    fn note_newcomer(&mut self, seen: &Seen, spawn: &Spawn) {
        let ports = seen.engine.graph().node_spec(spawn.bus).map_or(0, |spec| spec.inputs.len());
        self.hit(match ports {
            1 => "voice on a bus of 1 port",
            64 => "voice on a bus of 64 ports",
            _ => "voice on a bus of 2 to 63 ports",
        });
        let elsewhere = seen.before.voices.iter().any(|voice| voice.bus != Some(spawn.bus));
        self.hit_if("voice while another bus has voices", elsewhere);
        self.hit(match spawn.pan {
            pan if pan.is_nan() => "pan NaN",
            0.0 if spawn.pan.is_sign_negative() => "pan -0",
            0.0 => "pan +0",
            _ => "pan other",
        });
        let (nodes, edges) = headroom(seen, spawn);
        self.hit_if("spawn takes the last nodes of its headroom", nodes == limits::NODES);
        self.hit_if("spawn takes the last edges of its headroom", edges == limits::EDGES);
        self.hit_if("noise sequence wraps", seen.before.noise == u32::MAX);
        self.hit_if("last voice id given out", seen.answer.of("voice") == Some(u64::MAX));
    }

    fn note_definition(&mut self, def: &Definition) {
        let twice = |n: usize| def.edges[..n].iter().any(|e| (e.to, e.port) == (def.edges[n].to, def.edges[n].port));
        let named = |n: usize| def.params[..n].iter().any(|p| p.name == def.params[n].name);
        self.hit_if("24 nodes", def.nodes.len() == limits::DEF_NODES);
        self.hit_if("48 edges", def.edges.len() == limits::DEF_EDGES);
        self.hit_if("8 parameters", def.params.len() == limits::DEF_PARAMS);
        self.hit_if("a node of 8 ports", def.nodes.iter().any(|node| usize::from(node.ports) == limits::DEF_PORTS));
        self.hit_if("a port given twice", (0..def.edges.len()).any(twice));
        self.hit_if("two parameters of one name", (0..def.params.len()).any(named));
    }

    fn note_managed(&mut self, seen: &Seen, spawn: &Spawn) {
        if !spawn.is_managed {
            return self.hit_if("12 after none", seen.answer.is("refused"));
        }
        let Some(allocator) = seen.engine.voice_allocator() else {
            self.hit("budget none");
            return self.hit_if("12 after none", seen.answer.is("refused"));
        };
        self.hit(match allocator.budget() {
            0 => "budget 0",
            1 => "budget 1",
            2 => "budget 2",
            64 => "budget 64",
            _ => "budget 3 to 63",
        });
        let is_counted = |voice: &&Voice| allocator.scope() == BudgetScope::Global || voice.bus == Some(spawn.bus);
        let counted: Vec<&Voice> = seen.before.tracked().filter(is_counted).collect();
        let mut victim = None;
        if counted.len() >= allocator.budget() {
            self.hit(at_budget(allocator));
            victim = pick(allocator.policy(), &counted);
        }
        self.note_steal(seen, victim, &counted);
        self.note_choice(allocator.policy(), victim, &counted);
        self.note_reclaims(seen, spawn, victim);
    }

    fn note_steal(&mut self, seen: &Seen, victim: Option<&Voice>, counted: &[&Voice]) {
        let total = seen.engine.steals().len();
        if let Some(victim) = victim {
            self.hit(if victim.feeds.is_some() { "steal that fades" } else { "steal that cuts" });
            let is_gone = victim.bus.is_none_or(|bus| seen.engine.graph().node_spec(bus).is_none());
            self.hit_if("victim without a port: cut", victim.feeds.is_none() && !is_gone);
            self.hit_if("victim whose bus is removed: cut", is_gone);
            let is_nan = |voice: &&Voice| voice.level.is_some_and(f32::is_nan);
            self.hit_if("steal with a NaN among the levels", counted.iter().any(is_nan));
            let is_old = |record: usize| record + limits::RECORDS < total;
            let lives = seen.engine.voice_rows().any(|row| row.fade.is_some_and(|(_, _, record)| is_old(record)));
            self.hit_if("steal with more than 64 made since a fade began that lives", lives);
        }
        self.hit_if("steal that drops the oldest record", total > seen.before.steals && total > limits::RECORDS);
    }

    /// A victim that was not the only one in question.
    fn note_choice(&mut self, policy: StealPolicy, victim: Option<&Voice>, counted: &[&Voice]) {
        let Some(victim) = victim.filter(|_| counted.len() > 1) else {
            return;
        };
        let equal = counted.iter().filter(|voice| victim.level.is_some() && voice.level == victim.level).count() > 1;
        self.hit(match policy {
            StealPolicy::Oldest => "steal of the oldest of several",
            StealPolicy::Newest => "steal of the newest of several",
            _ if equal => "steal of the quietest, levels equal",
            _ => "steal of the quietest of several",
        });
    }

    /// The voices that are removed but for a victim that was cut at once.
    fn note_reclaims(&mut self, seen: &Seen, spawn: &Spawn, victim: Option<&Voice>) {
        let is_gone = |voice: &&Voice| !seen.engine.voice_rows().any(|row| row.id.0 == voice.id);
        let is_victim = |voice: &Voice| victim.is_some_and(|victim| victim.id == voice.id);
        let reclaimed = seen.before.voices.iter().filter(is_gone).filter(|v| !is_victim(v) || v.feeds.is_some());
        let reclaimed: Vec<&Voice> = reclaimed.collect();
        for voice in &reclaimed {
            match voice.fade {
                _ if is_victim(voice) => self.hit("reclaim of the fade just begun"),
                None => self.hit("reclaim of a tracked voice"),
                Some(fade) => {
                    self.hit("reclaim of a fade");
                    self.hit_if("reclaim of a fade that has ended", fade.ended);
                    let total = seen.before.steals + usize::from(victim.is_some());
                    self.hit_if("reclaim of a fade whose record is dropped", fade.record + limits::RECORDS < total);
                    let later = |v: &Voice| v.bus == Some(spawn.bus) && v.fade.is_some_and(|f| f.start > fade.start);
                    let behind = seen.before.voices.iter().take_while(|v| v.id != voice.id).any(later);
                    self.hit_if("reclaim of a fade behind one that began later", behind);
                }
            }
        }
        self.hit_if("two and more reclaims in one spawn", reclaimed.len() > 1);
        if seen.answer.of("refused") == Some(12) {
            let made = victim.is_some() || !reclaimed.is_empty();
            self.hit(if made { "12 after a steal or reclaim" } else { "12 after none" });
        }
    }
}

/// The nodes and the edges that a spawn's headroom counts.
fn headroom(seen: &Seen, spawn: &Spawn) -> (usize, usize) {
    (seen.before.nodes + spawn.def.nodes.len() + 3, seen.before.edges + spawn.def.edges.len() + 4)
}

fn at_budget(allocator: &VoiceAllocator) -> &'static str {
    match (allocator.policy(), allocator.scope()) {
        (StealPolicy::Reject, BudgetScope::Global) => "reject, global",
        (StealPolicy::Reject, BudgetScope::PerGroup) => "reject, per group",
        (StealPolicy::Oldest, BudgetScope::Global) => "oldest, global",
        (StealPolicy::Oldest, BudgetScope::PerGroup) => "oldest, per group",
        (StealPolicy::Newest, BudgetScope::Global) => "newest, global",
        (StealPolicy::Newest, BudgetScope::PerGroup) => "newest, per group",
        (StealPolicy::Quietest, BudgetScope::Global) => "quietest, global",
        (StealPolicy::Quietest, BudgetScope::PerGroup) => "quietest, per group",
    }
}

/// The victim among these voices.
fn pick<'a>(policy: StealPolicy, voices: &[&'a Voice]) -> Option<&'a Voice> {
    let first = voices.first().copied();
    match policy {
        StealPolicy::Reject => None,
        StealPolicy::Oldest => first,
        StealPolicy::Newest => voices.last().copied(),
        StealPolicy::Quietest => {
            let known = voices.iter().copied().filter(|voice| voice.level.is_some());
            known.reduce(|quiet, voice| if voice.level <= quiet.level { voice } else { quiet }).or(first)
        }
    }
}

/// Why a definition is refused: the first that holds.
fn refused_definition(def: &Definition) -> &'static str {
    let is_named = |name: &[u8]| limits::is_name(name);
    match def {
        _ if def.nodes.is_empty() => "refused: no node",
        _ if def.nodes.len() > limits::DEF_NODES => "refused: more than 24 nodes",
        _ if def.edges.len() > limits::DEF_EDGES => "refused: more than 48 edges",
        _ if def.params.len() > limits::DEF_PARAMS => "refused: more than 8 parameters",
        _ if def.nodes.iter().any(|node| usize::from(node.ports) > limits::DEF_PORTS) => "refused: more than 8 ports",
        _ if !def.nodes.iter().all(|node| is_named(&node.kind)) => "refused: a name",
        _ if !def.params.iter().all(|param| is_named(&param.name)) => "refused: a name",
        _ if !has_all(def) => "refused: a node or port that there is not",
        _ => "refused: a cycle",
    }
}

/// Whether a definition has every node and port that it names.
pub(super) fn has_all(def: &Definition) -> bool {
    let ports = |node: u8| def.nodes.get(usize::from(node)).map_or(0, |node| node.ports);
    let is_node = |node: u8| usize::from(node) < def.nodes.len();
    let has_ports = def.nodes.iter().all(|node| {
        let named = [node.input, node.level, node.amp];
        u32::from(node.required) >> node.ports == 0 && named.iter().all(|&port| port == 255 || port < node.ports)
    });
    has_ports
        && def.edges.iter().all(|edge| is_node(edge.from) && edge.port < ports(edge.to))
        && def.params.iter().all(|param| is_node(param.node))
        && is_node(def.output)
}
