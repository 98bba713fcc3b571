
// Accessors for the oracle, appended by its build.

impl StealFade {
    /// A fade over `len` samples that has come to `pos`.
    pub fn standing_at(len: usize, pos: u64) -> Self {
        StealFade { len: len.max(1), pos: pos as usize }
    }

    pub fn position(&self) -> u64 {
        self.pos as u64
    }
}
