//! The wishes of the keyboards (02, Paper 11), which the Rust has not: the player keeps them, and gives the Rust the spawn that a turn
//! serves.

use std::collections::VecDeque;

use scripted::definition::Definition;
use scripted::limits::{Refusal, check};

use crate::spawn::Spawn;

/// How many keyboards there may be, and how many wishes may wait at each.
const KEYBOARDS: u32 = 8;
const WAITING: usize = 16;

/// A spawn that waits, with its definition as it was at the wish, or the 26 or 9 that it will be refused with.
pub(crate) struct Wish {
    pub definition: Result<Definition, Refusal>,
    pub how: Spawn,
}

#[derive(Default)]
pub(crate) struct Wishes {
    queues: Vec<VecDeque<Wish>>,
    /// The keyboard that was served last.
    last: Option<usize>,
}

impl Wishes {
    /// No wish at so many keyboards, or 24.
    pub fn at(keyboards: u32) -> Result<Wishes, Refusal> {
        check((1..=KEYBOARDS).contains(&keyboards), 24)?;
        Ok(Wishes { queues: (0..keyboards).map(|_| VecDeque::new()).collect(), last: None })
    }

    /// 24 or 25, or the wish waits.
    pub fn add(&mut self, keyboard: u32, wish: Wish) -> Result<(), Refusal> {
        let queue = self.queues.get_mut(keyboard as usize).ok_or(24)?;
        check(queue.len() < WAITING, 25)?;
        queue.push_back(wish);
        Ok(())
    }

    /// Whether no wish waits.
    pub fn is_empty(&self) -> bool {
        self.queues.iter().all(VecDeque::is_empty)
    }

    /// The keyboards in the order in which a turn looks at them.
    fn round(&self) -> impl Iterator<Item = usize> + use<> {
        let first = self.last.map_or(0, |last| last + 1);
        let many = self.queues.len();
        (first..first + many).map(move |keyboard| keyboard % many)
    }

    /// The wish that a turn serves, and its keyboard.
    pub fn take(&mut self) -> Option<(usize, Wish)> {
        let keyboard = self.round().find(|&keyboard| !self.queues[keyboard].is_empty())?;
        self.last = Some(keyboard);
        self.queues[keyboard].pop_front().map(|wish| (keyboard, wish))
    }

    /// How many wait at each keyboard, and the keyboard after the last served.
    pub fn line(&self) -> String {
        let counts: String = self.queues.iter().map(|queue| format!(" {}", queue.len())).collect();
        format!("waiting{counts} next {}", self.round().next().unwrap_or(0))
    }
}
