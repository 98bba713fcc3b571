
// Accessors for the oracle, appended by its build.

std::thread_local! {
    // The number of the first row of the node table: the Rust counts its nodes from 0, the player from here.
    static FIRST: std::cell::Cell<u32> = const { std::cell::Cell::new(0) };
}

/// Counts the nodes of the store that is played from this number on.
pub fn count_from(first: u32) {
    FIRST.set(first);
}

/// The number of the first node.
pub fn first_number() -> u32 {
    FIRST.get()
}

/// A number that no node of the store has: the last of all, or where nodes are counted from another number the one before it.
pub fn unknown_number() -> u32 {
    first_number().wrapping_sub(1)
}

impl NodeId {
    /// The id with this number, given out or not. One below the first number is that of a row that no store reaches before its ids end.
    pub fn numbered(number: u32) -> NodeId {
        NodeId(number.wrapping_sub(first_number()))
    }

    /// Its number.
    pub fn number(self) -> usize {
        self.0 as usize + first_number() as usize
    }
}
