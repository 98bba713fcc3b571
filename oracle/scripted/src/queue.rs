//! The queue of pending events as Paper 9 orders it, beside the Rust's, which keeps every event that was accepted: the Rust is the
//! machine with which that paper compares the store.

use microsynth::scheduler::{Event, EventAction, VoiceId};

use crate::limits::{self, Refusal, check};

/// What an event orders: a value or a glide, for a parameter of a voice, at a time.
#[derive(PartialEq)]
pub struct Order<'a> {
    pub time: u64,
    pub voice: VoiceId,
    pub is_glide: bool,
    pub param: &'a str,
}

/// None for a free, and for a name that is not 1 to 16 bytes. A gate is a value for `gate`.
pub fn order(event: &Event) -> Option<Order<'_>> {
    let (voice, is_glide, param) = match &event.action {
        EventAction::SetParam { voice, param, .. } => (*voice, false, param.as_str()),
        EventAction::SetParamGlide { voice, param, .. } => (*voice, true, param.as_str()),
        EventAction::SetGate { voice, .. } => (*voice, false, "gate"),
        EventAction::FreeSynth { .. } => return None,
    };
    // A byte of a name is a letter here.
    let is_named = (1..=16).contains(&param.chars().count());
    is_named.then_some(Order { time: event.time, voice, is_glide, param })
}

/// Whether a new event replaces a pending one.
pub fn replaces(new: &Event, old: &Event) -> bool {
    order(new).is_some_and(|new| order(old) == Some(new))
}

/// An event that was accepted, and whether it waits in the store: no later one has replaced it.
pub struct Accepted {
    pub event: Event,
    pub is_left: bool,
}

/// Every accepted event that was not taken yet, in the Rust's order.
#[derive(Default)]
pub struct Queue(Vec<Accepted>);

impl Queue {
    /// The events that wait in the store.
    pub fn left(&self) -> impl Iterator<Item = &Event> {
        self.0.iter().filter(|accepted| accepted.is_left).map(|accepted| &accepted.event)
    }

    /// How many events the Rust has for them.
    pub fn kept(&self) -> usize {
        self.0.len()
    }

    /// Those that the event replaces go, and it stands at the end of its time; 7 where there is then no place for it.
    pub fn schedule(&mut self, event: &Event) -> Result<(), Refusal> {
        let stays = self.left().filter(|old| !replaces(event, old)).count();
        check(stays < limits::EVENTS, 7)?;
        for old in self.0.iter_mut().filter(|old| replaces(event, &old.event)) {
            old.is_left = false;
        }
        let place = self.0.partition_point(|old| old.event.time <= event.time);
        self.0.insert(place, Accepted { event: event.clone(), is_left: true });
        Ok(())
    }

    /// Takes what is due before the deadline, as the Rust does.
    pub fn take_before(&mut self, deadline: u64) -> Vec<Accepted> {
        let due = self.0.partition_point(|old| old.event.time < deadline);
        self.0.drain(..due).collect()
    }
}
