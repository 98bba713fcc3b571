
// Accessors for the oracle, appended by its build.

/// What the engine keeps of one voice.
pub struct VoiceRow<'a> {
    pub id: VoiceId,
    pub synth: &'a Synth,
    /// The pan node and its constant.
    pub pan: Option<(NodeId, NodeId)>,
    pub born: u64,
    pub bus: Option<NodeId>,
    /// The fade node, the sample it began at and the number of its steal record.
    pub fade: Option<(NodeId, u64, usize)>,
}

impl Engine {
    /// The voices in order.
    pub fn voice_rows(&self) -> impl Iterator<Item = VoiceRow<'_>> {
        self.voices.iter().map(|v| VoiceRow {
            id: v.id,
            synth: &v.synth,
            pan: v.pan_nodes,
            born: v.born,
            bus: v.bus,
            fade: v.fade,
        })
    }

    /// The noise sequence that the next voice of this bus gets. The Rust as it was published has one for all.
    pub fn noise_sequence(&self, bus: NodeId) -> u32 {
        #[cfg(changed)]
        let sequence = self.noise_of_bus.get(&bus.index()).copied().unwrap_or(0);
        #[cfg(not(changed))]
        let sequence = (bus, self.noise_spawn_seq).1;
        sequence
    }

    /// Sets the noise sequence that the next voice of this bus gets.
    pub fn set_noise_sequence_of(&mut self, bus: NodeId, sequence: u32) {
        #[cfg(changed)]
        self.noise_of_bus.insert(bus.index(), sequence);
        #[cfg(not(changed))]
        (self.noise_spawn_seq = (bus, sequence).1);
    }

    /// Sets the noise sequence that the next voice on no bus gets.
    pub fn set_noise_sequence(&mut self, sequence: u32) {
        self.noise_spawn_seq = sequence;
    }

    /// Sets the clock.
    pub fn set_sample_offset(&mut self, sample: u64) {
        self.context.sample_offset = sample;
    }

    /// The level of a node's last block, by the engine's own sum: that of a voice whose output the node is. The voice is
    /// there for this one question, is older than the clock, and has the id 0, which is never given out.
    pub fn node_level(&mut self, node: NodeId) -> Option<f32> {
        let synth = Synth::new(String::new(), Vec::new(), node, Vec::new(), Vec::new(), DonePlan::default());
        self.voices.push(Voice { id: VoiceId(0), synth, pan_nodes: None, born: 0, bus: None, fade: None });
        let clock = core::mem::replace(&mut self.context.sample_offset, 1);
        let level = self.voice_level(VoiceId(0));
        self.context.sample_offset = clock;
        self.voices.pop();
        level
    }
}

/// The seed of a node of the voice that was made at this sequence.
pub fn noise_seed(sequence: u32, node: usize) -> u32 {
    derive_noise_seed(sequence, node)
}
