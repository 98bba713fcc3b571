//! Vectors for the queue: histories of scheduling and taking.

use microsynth::curve::{GlideShape, GlideSpace};
use microsynth::scheduler::{Event, EventAction, Scheduler, VoiceId};
use scripted::limits;
use scripted::queue::Queue;
use scripted::words::{self, hex32};
use seeded::floats::Profile;
use seeded::rng::Rng;

use crate::book::{Book, Vector};

const HISTORY: u8 = 31;

const SCHEDULE: u8 = 1;
const TAKE: u8 = 2;

pub fn book(rng: &mut Rng, amount: usize) -> Book {
    let mut book = Book::default();
    book.put("queue histories", 1, at_the_deadline(rng));
    book.put("queue histories", 1, filled(rng));
    for n in 0..amount {
        let calls = if n % 50 == 49 { rng.within(257, 300) } else { rng.within(1, 30) };
        book.put("queue histories", 1, any_history(rng, calls));
    }
    book
}

/// A time: often one of few, so that events fall together; sometimes the last of all.
fn time(rng: &mut Rng) -> u64 {
    match rng.below(12) {
        0 => u64::MAX - rng.below(2) as u64,
        1 => rng.bits(),
        _ => rng.below(12) as u64 * 16,
    }
}

/// A history in the making: each call is written, made on the Rust, and its answer written. The Rust keeps what Paper 9 replaces.
struct History {
    calls: usize,
    vector: Vector,
    kept: Scheduler,
    queue: Queue,
}

impl History {
    fn new() -> History {
        History { calls: 0, vector: Vector::default(), kept: Scheduler::new(), queue: Queue::default() }
    }

    fn schedule(&mut self, rng: &mut Rng, time: u64) {
        self.calls += 1;
        let event = any_event(rng, time, &mut self.vector);
        match self.queue.schedule(&event) {
            Ok(()) => {
                self.kept.schedule(event);
                self.vector.line("done");
            }
            Err(number) => self.vector.line(format_args!("refused {number}")),
        }
    }

    fn take(&mut self, deadline: u64) {
        self.calls += 1;
        self.vector.u8(TAKE);
        self.vector.u64(deadline);
        let left: Vec<bool> = self.queue.take_before(deadline).iter().map(|taken| taken.is_left).collect();
        let taken = self.kept.drain_before(deadline);
        assert_eq!(taken.len(), left.len(), "the Rust takes what was accepted");
        let taken: Vec<&Event> = taken.iter().zip(left).filter_map(|(event, left)| left.then_some(event)).collect();
        events(&mut self.vector, "taken", &taken);
    }

    fn finish(mut self) -> Vector {
        events(&mut self.vector, "waiting", &self.queue.left().collect::<Vec<_>>());
        let mut vector = Vector::new(HISTORY);
        vector.u32(self.calls);
        vector.append(self.vector);
        vector
    }
}

/// Events at, below and above their deadline, and at the last sample of all.
fn at_the_deadline(rng: &mut Rng) -> Vector {
    let mut history = History::new();
    for time in [64, 63, 65, 64, u64::MAX, 63, u64::MAX - 1] {
        history.schedule(rng, time);
    }
    for deadline in [0, 64, 65, u64::MAX - 1, u64::MAX] {
        history.take(deadline);
    }
    history.finish()
}

/// A queue that is filled, overfilled, and filled again.
fn filled(rng: &mut Rng) -> Vector {
    let mut history = History::new();
    for n in 0..limits::EVENTS + 2 {
        history.schedule(rng, n as u64 % 50);
    }
    history.take(1);
    for _ in 0..8 {
        history.schedule(rng, 20);
    }
    history.finish()
}

/// A history of random calls. A long one fills the queue.
fn any_history(rng: &mut Rng, calls: usize) -> Vector {
    let mut history = History::new();
    let takes = if calls > limits::EVENTS { 400 } else { 6 };
    for _ in 0..calls {
        let time = time(rng);
        if rng.once_in(takes) {
            history.take(time.wrapping_add(rng.below(2) as u64));
        } else {
            history.schedule(rng, time);
        }
    }
    history.finish()
}

/// An event at this time, which is written to the vector.
fn any_event(rng: &mut Rng, time: u64, vector: &mut Vector) -> Event {
    let voice = VoiceId(rng.below(5) as u64);
    let length = if rng.once_in(10) { *rng.pick(&[0, 16, 17, 40]) } else { rng.within(1, 5) };
    // Often one of few, so that events replace each other.
    let name: Vec<u8> = match rng.below(8) {
        0..=2 => b"gate".to_vec(),
        3 => vec![b'a'; length],
        4 => b"abgtabgt"[..length.min(8)].to_vec(),
        _ => (0..length).map(|_| *rng.pick(b"abgt")).collect(),
    };
    let (first, second) = (Profile::Mixed.sample(rng), Profile::Mixed.sample(rng));
    let tension = Profile::Mixed.sample(rng);
    let (sort, shape, space) = (rng.below(4), rng.below(4), rng.below(2));
    vector.u8(SCHEDULE);
    vector.u64(time);
    vector.u64(voice.0);
    vector.name(&name);
    vector.u8(sort as u8);
    vector.f32(first);
    vector.f32(second);
    vector.u8(shape as u8);
    vector.f32(tension);
    vector.u8(space as u8);

    let param = String::from_utf8(name).expect("names are of letters");
    let shapes = [GlideShape::Hold, GlideShape::Linear, GlideShape::Sine, GlideShape::Exponential(tension)];
    let action = match sort {
        0 => EventAction::SetParam { voice, param, value: first },
        1 => EventAction::SetParamGlide {
            voice,
            param,
            target: first,
            glide_secs: second,
            shape: shapes[shape],
            space: [GlideSpace::Raw, GlideSpace::Pitch][space],
        },
        2 => EventAction::SetGate { voice, value: first },
        _ => EventAction::FreeSynth { voice },
    };
    Event { time, action }
}

/// How many events there are, and a line for each.
fn events(vector: &mut Vector, word: &str, events: &[&Event]) {
    vector.line(format_args!("{word} {}", events.len()));
    for event in events {
        let (voice, action) = described(&event.action);
        vector.line(format_args!("{} {} {action}", event.time, voice.0));
    }
}

fn described(action: &EventAction) -> (VoiceId, String) {
    // A name that is none is held as one that matches nothing.
    let name = |param: &str| if limits::is_name(param.as_bytes()) { param.to_string() } else { "-".to_string() };
    match action {
        EventAction::SetParam { voice, param, value } => (*voice, format!("value {} {}", name(param), hex32(*value))),
        EventAction::SetParamGlide { voice, param, target, glide_secs, shape, space } => {
            let glide = words::glide(*target, *glide_secs, *shape, *space);
            (*voice, format!("glide {} {glide}", name(param)))
        }
        EventAction::SetGate { voice, value } => (*voice, format!("gate {}", hex32(*value))),
        EventAction::FreeSynth { voice } => (*voice, "free".to_string()),
    }
}
