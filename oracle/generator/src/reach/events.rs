//! What scripts reach of Paper 9: events that replace others, and events that nearly do.

use microsynth::scheduler::{Event, EventAction, VoiceId};
use scripted::limits;
use scripted::queue::{Order, order, replaces};

use super::Reach;

/// The row of a new event that replaces an old one.
fn replaced_row(new: &Event, old: &Event) -> &'static str {
    use EventAction::{SetGate, SetParam};
    match (&new.action, &old.action) {
        (SetGate { .. }, SetGate { .. }) => "a gate replaces a gate",
        (SetGate { .. }, _) => "a gate replaces a value for `gate`",
        (_, SetGate { .. }) => "a value for `gate` replaces a gate",
        (SetParam { .. }, _) => "a value replaces a value",
        _ => "a glide replaces a glide",
    }
}

/// The row of an event that leaves another one, which differs in one thing only.
fn left_row(new: &Order, old: &Order) -> Option<&'static str> {
    let differs = [new.time != old.time, new.voice != old.voice, new.is_glide != old.is_glide, new.param != old.param];
    match differs {
        [true, false, false, false] => Some("leaves one of another time"),
        [false, true, false, false] => Some("leaves one of another voice"),
        [false, false, true, false] => Some("leaves one of the other sort"),
        [false, false, false, true] => Some("leaves one of another parameter"),
        _ => None,
    }
}

/// What a value or a glide is for, whatever its name.
fn aim(event: &Event) -> Option<(u64, VoiceId, &str)> {
    match &event.action {
        EventAction::SetParam { voice, param, .. } | EventAction::SetParamGlide { voice, param, .. } => {
            Some((event.time, *voice, param))
        }
        _ => None,
    }
}

fn frees(event: &Event, id: VoiceId) -> bool {
    matches!(event.action, EventAction::FreeSynth { voice } if voice == id)
}

impl Reach {
    /// An event that was taken, and the events that waited before it.
    pub(super) fn note_replacing(&mut self, new: &Event, waiting: &[Event], kept: usize) {
        let places = waiting.iter().enumerate().filter(|(_, old)| replaces(new, old));
        for (place, old) in places {
            self.hit(replaced_row(new, old));
            let behind = || waiting[place + 1..].iter().filter(|event| event.time == new.time);
            self.hit_if("replaces one with others of its time behind it", behind().next().is_some());
            let voice = order(new).map_or(VoiceId(0), |order| order.voice);
            self.hit_if("replaces one with a free of the voice behind it", behind().any(|event| frees(event, voice)));
            self.hit_if("256 events: a place is freed", waiting.len() == limits::EVENTS);
        }
        self.hit_if("more than 256 kept by the Rust", kept > limits::EVENTS);
        match order(new) {
            Some(new) => waiting.iter().filter_map(order).filter_map(|old| left_row(&new, &old)).for_each(|row| self.hit(row)),
            None => {
                let is_same = |old: &Event| aim(new).is_some() && aim(new) == aim(old);
                self.hit_if("leaves one of the same name of 0 or more than 16 bytes", waiting.iter().any(is_same));
            }
        }
    }
}
