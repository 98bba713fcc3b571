
// Accessors for the oracle, appended by its build.

/// The names through whose port `in` silence passes.
pub fn silence_pass_through() -> &'static [&'static str] {
    SILENCE_PASS_THROUGH
}
