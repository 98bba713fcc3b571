//! Plays the entries of a script one by one, each on the store that the last left.

use microsynth::node::NodeId;
use microsynth::scheduler::VoiceId;
use microsynth::voice::{BudgetScope, StealPolicy};
use scripted::definition::Definition;
use scripted::limits::{Refusal, check};

use crate::render::list_digits;
use crate::script::{self, Call};
use crate::seal::Profile;
use crate::spawn::Spawn;
use crate::store::{Answer, Config, Store};
use crate::wishes::{Wish, Wishes};

/// How many entries the list of a render needs.
pub const LIST: usize = 256;

/// The length of the list that an entry lends.
pub fn list_length(said: u32) -> usize {
    said.min(4096) as usize
}

/// A definition that was kept, or the 9 that it is refused with; and how many nodes and edges were given for it.
#[derive(Clone)]
pub(crate) struct Kept {
    pub nodes: u64,
    pub edges: u64,
    pub definition: Result<Definition, Refusal>,
}

pub struct Player {
    store: Store,
    slots: [Kept; 16],
    wishes: Wishes,
    /// By what the store is sealed, if it is.
    seal: Option<Profile>,
}

impl Default for Player {
    /// What the entries before the first making are played on.
    fn default() -> Player {
        let config = Config { rate: 48_000.0, block: 64, budget: None, has_table: false };
        let store = Store::make(&config).expect("it is within the limits");
        let slots = [const { Kept { nodes: 0, edges: 0, definition: Err(9) } }; 16];
        Player { store, slots, wishes: Wishes::default(), seal: None }
    }
}

/// The policy that an entry says.
pub fn policy_of(said: u8) -> StealPolicy {
    match said {
        0 => StealPolicy::Reject,
        1 => StealPolicy::Oldest,
        2 => StealPolicy::Newest,
        _ => StealPolicy::Quietest,
    }
}

/// The scope that an entry says.
pub fn scope_of(said: u8) -> BudgetScope {
    if said == 0 { BudgetScope::Global } else { BudgetScope::PerGroup }
}

fn done(result: Result<(), Refusal>) -> Answer {
    result.map(|()| "done".to_string())
}

fn outcome(number: u8) -> String {
    format!("outcome {number}")
}

/// The words of a remark in one line: a byte that is no printable character of ASCII is `?`.
fn printable(words: &[u8]) -> String {
    words.iter().map(|&byte| if (32..=126).contains(&byte) { char::from(byte) } else { '?' }).collect()
}

impl Player {
    /// The store that was made last, to be looked at.
    pub fn store(&self) -> &Store {
        &self.store
    }

    /// Plays an entry and answers its lines. `upcoming` is what the script has after it.
    pub fn play(&mut self, call: &Call, upcoming: &[Call]) -> String {
        self.answer(call, upcoming).unwrap_or_else(|number| format!("refused {number}")) + "\n"
    }

    fn answer(&mut self, call: &Call, upcoming: &[Call]) -> Answer {
        check(!self.seal.is_some_and(|seal| self.closes(&seal, call)), 28)?;
        let (store, id) = (&mut self.store, NodeId::numbered);
        match *call {
            Call::Make { .. } | Call::MakeWithTable { .. } | Call::MakeConsole { .. } => self.make(call),
            Call::SetCounters { clock, voices, noise, node } => {
                store.set_counters(clock, voices, noise, node);
                Ok("set".to_string())
            }
            Call::AddNode { ref kind, ports, required, takes, channels } => {
                store.add_node(kind, ports, required, takes, channels).map(|id| format!("node {}", id.number()))
            }
            Call::RemoveNode { node } => done(store.remove_node(id(node))),
            Call::Connect { from, to, port } => done(store.connect(id(from), id(to), port as usize)),
            Call::Disconnect { to, port } => done(store.disconnect(id(to), port as usize)),
            Call::SetSink { node } => done(store.set_sink(id(node))),
            Call::Keep { slot, ref definition } => Ok(self.keep(slot, definition)),
            Call::SpawnManagedPanned { slot, bus, pan, rank } => self.spawn(slot, true, bus, Some(pan), rank),
            Call::SpawnPanned { slot, bus, pan, rank } => self.spawn(slot, false, bus, Some(pan), rank),
            Call::SpawnManaged { slot, bus, rank } => self.spawn(slot, true, bus, None, rank),
            Call::Spawn { slot, bus, rank } => self.spawn(slot, false, bus, None, rank),
            Call::Wish { slot, keyboard, managed, bus, pan, rank } => {
                self.wish(slot, keyboard, managed != 0, bus, pan, rank)
            }
            Call::Turn {} => Ok(self.turn()),
            Call::Waiting {} => Ok(self.wishes.line()),
            Call::Seal { bus, ports, nodes, edges, def_nodes, def_edges } => {
                self.seal_by(Profile { bus, ports, nodes, edges, def_nodes, def_edges })
            }
            Call::Remark { ref words } => Ok(format!("# {}", printable(words))),
            Call::Free { voice } => Ok(outcome(store.free(VoiceId(voice)))),
            Call::Clear {} => Ok(format!("removed {}", store.engine.free_done_synths())),
            Call::Value { voice, ref name, value } => Ok(outcome(store.value(voice, name, value))),
            Call::SetGlide { voice, ref name, ref glide } => Ok(outcome(store.glide(voice, name, glide))),
            Call::Schedule { .. } => done(store.schedule(call)),
            Call::Report { .. } | Call::ReportRepeated { .. } => done(store.report(call)),
            Call::Prepare {} => done(store.prepare()),
            Call::Render {} => store.render(&mut [255; LIST], upcoming),
            Call::RenderLent { length, old } => {
                let mut list = vec![old; list_length(length)];
                let line = store.render(&mut list, upcoming).unwrap_or_else(|number| format!("refused {number}"));
                Ok(format!("{line}\nlist{}", list_digits(&list)))
            }
            _ => store.read(call),
        }
    }

    /// Whether the call is not among those that "are open" behind the seal.
    fn closes(&self, seal: &Profile, call: &Call) -> bool {
        let is_open = |slot: u8, bus: u32| seal.opens(bus, &self.slots[usize::from(slot % 16)]);
        match *call {
            Call::AddNode { .. }
            | Call::RemoveNode { .. }
            | Call::Connect { .. }
            | Call::Disconnect { .. }
            | Call::SetSink { .. }
            | Call::SpawnPanned { .. }
            | Call::Spawn { .. }
            | Call::Seal { .. } => true,
            Call::SpawnManagedPanned { slot, bus, .. } | Call::SpawnManaged { slot, bus, .. } => !is_open(slot, bus),
            Call::Wish { slot, managed, bus, .. } => managed == 0 || !is_open(slot, bus),
            _ => false,
        }
    }

    /// "Sealing accepts exactly if"; else 27.
    fn seal_by(&mut self, profile: Profile) -> Answer {
        let is_room = profile.has_ports() && profile.has_nodes() && profile.has_edges();
        check(is_room && self.store.is_stated(&profile) && self.wishes.is_empty(), 27)?;
        self.seal = Some(profile);
        Ok("sealed".to_string())
    }

    /// The old store stays where a new one is refused. A new one has no seal. One that is made without keyboards has none.
    fn make(&mut self, call: &Call) -> Answer {
        let (rate, block, budgeted, budget, policy, scope, has_table, keyboards) = match *call {
            Call::Make { rate, block, budgeted, budget, policy, scope } => {
                (rate, block, budgeted, budget, policy, scope, false, None)
            }
            Call::MakeWithTable { rate, block, budgeted, budget, policy, scope } => {
                (rate, block, budgeted, budget, policy, scope, true, None)
            }
            Call::MakeConsole { rate, block, budgeted, budget, policy, scope, table, keyboards } => {
                (rate, block, budgeted, budget, policy, scope, table != 0, Some(keyboards))
            }
            _ => unreachable!("{call:?} makes no store"),
        };
        let budget = (budgeted != 0).then_some((budget, policy_of(policy), scope_of(scope)));
        let config = Config { rate, block, budget, has_table };
        config.check()?;
        let wishes = keyboards.map_or(Ok(Wishes::default()), Wishes::at)?;
        self.store = Store::make(&config)?;
        self.wishes = wishes;
        self.seal = None;
        Ok("made".to_string())
    }

    fn keep(&mut self, slot: u8, rows: &script::Definition) -> String {
        let definition = Definition::from(rows);
        let (nodes, edges) = (rows.nodes.len() as u64, rows.edges.len() as u64);
        let definition = definition.instance().map(|_| definition);
        self.slots[usize::from(slot % 16)] = Kept { nodes, edges, definition };
        "kept".to_string()
    }

    /// Nothing of the spawn is tested; the definition is the slot's at the wish. A wish with a rank above 7 waits for its 26.
    fn wish(&mut self, slot: u8, keyboard: u32, is_managed: bool, bus: u32, pan: f32, rank: u32) -> Answer {
        let definition = check(rank <= 7, 26).and(self.slots[usize::from(slot % 16)].definition.clone());
        assert!(rank == 0 || rank > 7, "runs against the Rust give every voice rank 0");
        let how = Spawn { is_managed, bus: NodeId::numbered(bus), pan: Some(pan) };
        self.wishes.add(keyboard, Wish { definition, how })?;
        Ok("waits".to_string())
    }

    fn turn(&mut self) -> String {
        let Some((keyboard, wish)) = self.wishes.take() else {
            return "empty".to_string();
        };
        let spawned = wish.definition.and_then(|definition| self.store.spawn(&definition, &wish.how));
        match spawned {
            Ok(voice) => format!("served {keyboard} voice {}", voice.0),
            Err(number) => format!("served {keyboard} refused {number}"),
        }
    }

    /// The Rust knows no ranks: 26 is given here, before all else, and every voice has the rank 0.
    fn spawn(&mut self, slot: u8, is_managed: bool, bus: u32, pan: Option<f32>, rank: u32) -> Answer {
        check(rank <= 7, 26)?;
        let definition = self.slots[usize::from(slot % 16)].definition.as_ref().map_err(|&number| number)?;
        assert_eq!(rank, 0, "runs against the Rust give every voice rank 0");
        let voice = self.store.spawn(definition, &Spawn { is_managed, bus: NodeId::numbered(bus), pan })?;
        Ok(format!("voice {}", voice.0))
    }
}

/// The entries of a script, and the last line of its transcript.
fn entries(script: &[u8]) -> (Vec<Call>, String) {
    let (mut calls, mut at) = (Vec::new(), 0);
    while at < script.len() {
        match script::decode(script, at) {
            Ok((call, next)) => {
                calls.push(call);
                at = next;
            }
            Err(at) => return (calls, format!("malformed {at}\n")),
        }
    }
    let end = format!("played {}\n", calls.len());
    (calls, end)
}

/// The transcript of a script: the lines of each entry as it is played, and the last line.
pub fn transcript(script: &[u8]) -> impl Iterator<Item = String> {
    let (calls, end) = entries(script);
    let mut player = Player::default();
    let lines = (0..calls.len()).map(move |n| player.play(&calls[n], &calls[n + 1..]));
    lines.chain([end])
}
