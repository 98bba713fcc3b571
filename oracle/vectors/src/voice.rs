//! Vectors for the policy: victims, admissions, and the steal records.

use microsynth::engine::StealRecord;
use microsynth::scheduler::VoiceId;
use microsynth::voice::{Admission, BudgetScope, StealPolicy, VoiceAllocator};
use scripted::limits;
use scripted::words;
use seeded::floats::{self, Profile};
use seeded::rng::Rng;

use crate::book::{Book, Vector};

const VICTIM: u8 = 41;
const ADMISSION: u8 = 42;
const RECORDS: u8 = 43;

const PUSH: u8 = 1;
const MARK: u8 = 2;

const POLICIES: [StealPolicy; 4] =
    [StealPolicy::Reject, StealPolicy::Oldest, StealPolicy::Newest, StealPolicy::Quietest];

const SCOPES: [BudgetScope; 2] = [BudgetScope::Global, BudgetScope::PerGroup];

pub fn book(rng: &mut Rng, amount: usize) -> Book {
    let mut book = Book::default();
    for levels in EDGE_LEVELS {
        for policy in 0..POLICIES.len() {
            book.put("victims", 1, victim(rng, policy, &edge_candidates(levels)));
        }
    }
    for _ in 0..amount {
        let (policy, candidates) = (rng.below(4), candidates(rng));
        book.put("victims", 1, victim(rng, policy, &candidates));
        book.put("admissions", 1, admission(rng));
    }
    for records in [1, 64, 65, 100] {
        book.put("steal records", 1, marked(rng, records));
    }
    for _ in 0..amount / 20 {
        book.put("steal records", 1, any_steals(rng));
    }
    book
}

/// A voice that may be stolen.
struct Candidate {
    voice: u64,
    bus: u32,
    level: Option<f32>,
}

/// Levels in which the first, a later one or none is the victim, by one rule or another.
const EDGE_LEVELS: [&[Option<f32>]; 9] = [
    &[],
    &[Some(2.0), Some(1.0), Some(1.0)],
    &[Some(f32::NAN), Some(1.0), Some(0.0)],
    &[Some(1.0), Some(f32::NAN), Some(1.0)],
    &[None, Some(f32::NAN), Some(0.0)],
    &[None, None],
    &[None, Some(f32::INFINITY), Some(f32::NEG_INFINITY)],
    &[Some(0.0), Some(-0.0)],
    &[Some(-0.0), Some(0.0)],
];

fn edge_candidates(levels: &[Option<f32>]) -> Vec<Candidate> {
    let candidate = |(n, &level): (usize, &Option<f32>)| Candidate { voice: n as u64 + 1, bus: 0, level };
    levels.iter().enumerate().map(candidate).collect()
}

/// Candidates with rising ids. Levels repeat often, and some are not known.
fn candidates(rng: &mut Rng) -> Vec<Candidate> {
    let count = match rng.below(12) {
        0 => 0,
        1 => 64,
        _ => rng.within(1, 12),
    };
    let unknown = rng.within(1, 4);
    let levels = match rng.below(4) {
        0 => Profile::Edges.samples(rng, 4),
        1 => vec![0.0, -0.0],
        2 => vec![1.0, 2.0, f32::NAN],
        _ => floats::block(rng, 6),
    };
    let mut voice = if rng.once_in(8) { u64::MAX - 2000 } else { 0 };
    let mut candidate = || {
        voice += rng.within(1, 30) as u64;
        Candidate { voice, bus: rng.below(3) as u32, level: (!rng.once_in(unknown + 1)).then(|| *rng.pick(&levels)) }
    };
    (0..count).map(|_| candidate()).collect()
}

/// How many candidates, and for each its id, its bus and its level.
fn put(vector: &mut Vector, candidates: &[Candidate]) {
    vector.u32(candidates.len());
    for c in candidates {
        vector.u64(c.voice);
        vector.u32(c.bus as usize);
        vector.level(c.level);
    }
}

fn level_of(candidates: &[Candidate], voice: VoiceId) -> Option<f32> {
    let found = candidates.iter().find(|c| c.voice == voice.0);
    found.expect("the Rust asks about voices that it tracks").level
}

/// The Rust also tracks voices that may not be taken; the store's list has only those that may.
fn victim(rng: &mut Rng, policy: usize, candidates: &[Candidate]) -> Vector {
    let mut vector = Vector::new(VICTIM);
    vector.u8(policy as u8);
    put(&mut vector, candidates);
    let mut rust = VoiceAllocator::new(0, POLICIES[policy]);
    let mut stranger = u64::MAX;
    for c in candidates {
        if rng.once_in(4) {
            rust.record_spawn(VoiceId(stranger));
            stranger -= 1;
        }
        rust.record_spawn(VoiceId(c.voice));
    }
    let place = |voice: VoiceId| candidates.iter().position(|c| c.voice == voice.0);
    let found = rust.pick_victim(|v| place(v).is_some(), |v| level_of(candidates, v));
    match found.and_then(place) {
        Some(place) => vector.line(format_args!("{place} {}", candidates[place].voice)),
        None => vector.line("-"),
    }
    vector
}

fn admission(rng: &mut Rng) -> Vector {
    let policy = rng.below(4);
    let scope = rng.below(2);
    let bus = rng.below(3) as u32;
    let candidates = candidates(rng);
    let tracked = candidates.iter().filter(|c| scope == 0 || c.bus == bus).count();
    let budget = match rng.below(6) {
        0 => None,
        1 => Some(rng.below(65)),
        2 => Some((tracked + 1).min(64)),
        3 => Some(tracked.saturating_sub(1)),
        _ => Some(tracked.min(64)),
    };
    let mut vector = Vector::new(ADMISSION);
    vector.u8(budget.is_some().into());
    vector.u32(budget.unwrap_or(0));
    vector.u8(policy as u8);
    vector.u8(scope as u8);
    vector.u32(bus as usize);
    put(&mut vector, &candidates);
    let Some(budget) = budget else {
        vector.line("admit");
        return vector;
    };
    let mut rust = VoiceAllocator::new(budget, POLICIES[policy]).with_scope(SCOPES[scope]);
    for c in &candidates {
        rust.record_spawn_in(VoiceId(c.voice), c.bus.into());
    }
    match rust.request_in(bus.into(), |v| level_of(&candidates, v)) {
        Admission::Admit => vector.line("admit"),
        Admission::Reject => vector.line("reject"),
        Admission::Steal(voice) => vector.line(format_args!("steal {}", voice.0)),
    }
    vector
}

/// A history of steals in the making. The Rust keeps all of them in a `Vec`.
struct Steals {
    calls: usize,
    vector: Vector,
    made: Vec<StealRecord>,
}

impl Steals {
    fn new() -> Steals {
        Steals { calls: 0, vector: Vector::default(), made: Vec::new() }
    }

    /// A call: a number, and a record's level and cut mark, which a mark does not look at.
    fn call(&mut self, sort: u8, number: u64, level: Option<f32>, cut: bool) {
        self.calls += 1;
        self.vector.u8(sort);
        self.vector.u64(number);
        self.vector.level(level);
        self.vector.u8(cut.into());
    }

    fn push(&mut self, rng: &mut Rng) {
        let sample = self.made.last().map_or(0, |r| r.sample) + rng.below(100) as u64;
        let (level, cut) = (rng.flag().then(|| floats::block(rng, 1)[0]), rng.once_in(3));
        self.call(PUSH, sample, level, cut);
        self.made.push(StealRecord { sample, level, cut });
    }

    fn mark(&mut self, number: usize) {
        self.call(MARK, number as u64, None, false);
        if let Some(marked) = self.made.get_mut(number) {
            marked.cut = true;
        }
    }

    /// The history, and the newest records at its end.
    fn finish(self) -> Vector {
        let mut vector = Vector::new(RECORDS);
        vector.u32(self.calls);
        vector.append(self.vector);
        vector.line(format_args!("steals {}", self.made.len()));
        for record in &self.made[self.made.len().saturating_sub(limits::RECORDS)..] {
            vector.line(words::steal(record));
        }
        vector
    }
}

/// So many records, and then marks of every number.
fn marked(rng: &mut Rng, records: usize) -> Vector {
    let mut steals = Steals::new();
    for _ in 0..records {
        steals.push(rng);
    }
    for number in 0..records + 2 {
        steals.mark(number);
    }
    steals.finish()
}

fn any_steals(rng: &mut Rng) -> Vector {
    let mut steals = Steals::new();
    for _ in 0..*rng.pick(&[0, 1, 5, 63, 64, 65, 90, 200]) {
        if rng.once_in(4) {
            steals.mark(rng.below(steals.made.len() + 3));
        } else {
            steals.push(rng);
        }
    }
    steals.finish()
}
