
// Accessors for the oracle, appended by its build.

impl Scheduler {
    /// The events that wait, in order.
    pub fn pending(&self) -> &[Event] {
        &self.events
    }

    /// The id that the next voice gets.
    pub fn next_voice(&self) -> VoiceId {
        VoiceId(self.next_voice_id)
    }

    /// Sets the id that the next voice gets.
    pub fn set_next_voice(&mut self, id: VoiceId) {
        self.next_voice_id = id.0;
    }
}
