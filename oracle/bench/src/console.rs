//! A store with eight keyboards, and the seal of a board: what the host lends besides the store, and scenes of it.

use crate::book::{OF_7, OF_24};
use crate::c;
use crate::scenes::{OLDEST, bus, done, full_budget, full_budget_of_largest, more_edges, more_nodes};
use crate::store::{Seal, Store, UNSEALED, Waiting, Wishes, or_refusal};

const KEYBOARDS: usize = 8;

#[derive(Clone)]
pub struct Console {
    store: Store,
    waiting: Waiting,
    wishes: Wishes,
    seal: Seal,
}

impl Console {
    pub fn make(&mut self, budget: usize) -> u32 {
        let (state, waiting) = (&mut self.store.state, &mut self.waiting);
        c::piecrag_make_console(state, waiting, 48_000.0, 128, 1, budget, OLDEST, 0, 0, KEYBOARDS)
    }

    /// A wish for a managed spawn of the book on node 0.
    pub fn wish(&mut self, keyboard: usize, book: &[u8]) -> u32 {
        let (waiting, wishes) = (&mut self.waiting, &mut self.wishes);
        // SAFETY: the book is lent with its length.
        unsafe { c::piecrag_wish(&self.seal, waiting, wishes, keyboard, 1, book.as_ptr(), book.len(), 0, 0.0, 0) }
    }

    /// The id of the new voice, or what the turn answers.
    pub fn turn(&mut self) -> u32 {
        let Store { state, nodes, edges, voices, steals, .. } = &mut self.store;
        let (mut keyboard, mut voice) = (0, 0);
        let answer = c::piecrag_turn(
            state,
            nodes,
            edges,
            voices,
            steals,
            &mut self.waiting,
            &self.wishes,
            &mut keyboard,
            &mut voice,
        );
        or_refusal(answer, voice as u32)
    }

    pub fn keyboard_count(&self) -> u32 {
        let mut count = 0;
        or_refusal(c::piecrag_keyboard_count(&self.waiting, &mut count), count as u32)
    }

    pub fn waiting_count(&self, keyboard: usize) -> u32 {
        let mut count = 0;
        or_refusal(c::piecrag_waiting_count(&self.waiting, keyboard, &mut count), count as u32)
    }

    pub fn next_keyboard(&self) -> u32 {
        let (mut found, mut keyboard) = (0, 0);
        or_refusal(c::piecrag_next_keyboard(&self.waiting, &mut found, &mut keyboard), keyboard as u32)
    }

    /// The board is sealed for definitions of one node and no edge, on node 0 with its 31 ports.
    pub fn seal(&mut self, host_nodes: u64, host_edges: u64) -> u32 {
        let Store { state, nodes, edges, voices, .. } = &self.store;
        c::piecrag_seal(
            &mut self.seal,
            state,
            nodes,
            edges,
            voices,
            &self.waiting,
            0,
            31,
            host_nodes,
            host_edges,
            1,
            0,
        )
    }
}

/// The store, with keyboards at which nothing waits. Making a console sets the store's state too, so a new one is made beside it.
fn with_keyboards(store: Store) -> Box<Console> {
    let mut console = Box::new(Console { store, waiting: [0; 12], wishes: [0xeeee_eeee; 31104], seal: UNSEALED });
    let state = console.store.state;
    done(console.make(32));
    console.store.state = state;
    console
}

/// A console on which nothing was called yet.
pub fn new_console(budget: usize) -> Box<Console> {
    let mut console = with_keyboards(*bus(budget, OLDEST, 64));
    done(console.make(budget));
    console
}

/// 15 wishes wait at the first keyboard.
pub fn room_for_a_wish() -> Box<Console> {
    let mut console = new_console(32);
    for _ in 0..15 {
        done(console.wish(0, &OF_24));
    }
    console
}

/// At the last keyboard waits a wish for the book.
fn with_wish(store: Store, book: &[u8]) -> Box<Console> {
    let mut console = with_keyboards(store);
    done(console.wish(KEYBOARDS - 1, book));
    console
}

/// 63 voices at a budget of 63, and a wish for one more.
pub fn full_keyboards() -> Box<Console> {
    with_wish(*full_budget(OLDEST, 64), &OF_7)
}

/// 19 voices of the largest definition at a budget of 19, and a wish for one more.
pub fn full_keyboards_of_largest() -> Box<Console> {
    with_wish(*full_budget_of_largest(), &OF_24)
}

/// A board that can be sealed: 384 nodes of the host and 896 edges fill the tables with 32 voices of one node.
pub fn board() -> Box<Console> {
    let mut s = bus(32, OLDEST, 31);
    more_nodes(&mut s, 383, 64);
    more_edges(&mut s, 896);
    with_keyboards(*s)
}
