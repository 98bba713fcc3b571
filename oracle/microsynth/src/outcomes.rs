//! What the events of a render answered, for the changed copy of the Rust (`../../changes/01-outcomes.patch`).

use std::cell::RefCell;

thread_local! {
    static KEPT: RefCell<Vec<bool>> = const { RefCell::new(vec![]) };
}

/// Keeps the answer of an event, yes or no.
pub fn keep(answer: bool) {
    KEPT.with_borrow_mut(|kept| kept.push(answer));
}

/// The answers that were kept since the last time, in event order.
pub fn take() -> Vec<bool> {
    KEPT.take()
}
