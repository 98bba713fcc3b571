//! Renders and the reports that go with them: a report repeats what the generator wrote in the last sounding render.

use microsynth::node::{NodeId, unknown_number};
use microsynth::scheduler::VoiceId;
use replay::script::{Call, Repeated, Samples};
use seeded::floats::{self, Profile};

use crate::values;
use crate::writer::Writer;

impl Writer {
    /// A render; where it is sure to sound, reports follow it.
    pub fn render(&mut self) {
        let reports = if self.will_sound() { self.planned_reports() } else { vec![] };
        if self.rng.once_in(24) {
            self.put_lent(&[0, 1, 100, 254, 255, 255], &[]);
        }
        if self.rng.once_in(4) {
            self.put_lent(&[256, 256, 257, 300, 512, 4353], &reports);
        } else {
            self.put_before(Call::Render {}, &reports);
        }
        for report in reports {
            self.put(report);
        }
    }

    /// A render with a list of one of these lengths, and something in it.
    fn put_lent(&mut self, lengths: &[u32], reports: &[Call]) {
        let length = *self.rng.pick(lengths);
        let old = *self.rng.pick(&[0, 1, 2, 3, 7, 255]);
        self.put_before(Call::RenderLent { length, old }, reports);
    }

    pub fn sound(&mut self) {
        if self.engine().graph().is_dirty() {
            self.prepare();
        }
        self.render();
    }

    /// Reports of some of the nodes, at most one of each: the outputs of voices more often than the rest.
    fn planned_reports(&mut self) -> Vec<Call> {
        let outputs: Vec<NodeId> = self.engine().voice_rows().map(|row| row.synth.output_node()).collect();
        let mut reports = vec![];
        for node in self.reportable() {
            let is_output = outputs.contains(&NodeId::numbered(node));
            if reports.len() < 8 && self.rng.once_in(if is_output { 2 } else { 12 }) {
                let samples = usize::from(self.channels_of(node)) * self.block();
                let block = self.some_block(samples);
                let is_done = self.rng.once_in(self.done_once_in);
                reports.push(self.report(node, block, is_done));
            }
        }
        reports
    }

    /// A block that repeats a sample, or, if it is short, one of many.
    fn some_block(&mut self, samples: usize) -> Vec<f32> {
        let few = [0.5, 0.5, 0.25, -0.25, 1.0, f32::NAN, f32::INFINITY, -0.0, f32::from_bits(1)];
        match self.rng.below(8) {
            0..4 => vec![*self.rng.pick(&few); samples],
            4 | 5 => vec![values::float(&mut self.rng); samples],
            _ if samples > 32 => vec![Profile::Audio.sample(&mut self.rng); samples],
            _ => floats::block(&mut self.rng, samples),
        }
    }

    /// The report of a block, by the shorter of the two calls that say it.
    fn report(&mut self, node: u32, block: Vec<f32>, is_done: bool) -> Call {
        let channels = self.channels_of(node);
        let done = if is_done { values::yes(&mut self.rng) } else { 0 };
        let first = block[0];
        if block.iter().all(|sample| sample.to_bits() == first.to_bits()) {
            let samples = Repeated { count: block.len() as u32, sample: first };
            Call::ReportRepeated { node, channels, done, samples }
        } else {
            Call::Report { node, channels, done, samples: Samples(block) }
        }
    }

    /// Reports a node's last block again: only the done flag can change.
    pub fn report_again(&mut self) {
        let nodes = self.reportable();
        if !nodes.is_empty() {
            let node = *self.rng.pick(&nodes);
            let is_done = self.rng.once_in(self.done_once_in);
            self.flag(node, is_done);
        }
    }

    /// Sets or clears a node's done flag, once it has a block to report.
    fn flag(&mut self, node: u32, is_done: bool) {
        if let Some(block) = self.last_block(node) {
            let report = self.report(node, block, is_done);
            self.put(report);
        }
    }

    /// The nodes of a voice's definition.
    fn nodes_of(&self, voice: u64) -> Vec<u32> {
        let synth = self.engine().voice_synth(VoiceId(voice));
        synth.map_or(vec![], |synth| synth.node_ids().iter().map(|id| id.number() as u32).collect())
    }

    /// Sets the done flags of some nodes of a voice, seldom its output's, and clears the others, so that its kinds
    /// decide whether the clearing that follows removes it.
    pub fn hush(&mut self) {
        if self.engine().graph().is_dirty() {
            self.sound();
        }
        let voice = self.some_voice();
        let output = self.engine().voice_synth(VoiceId(voice)).map(|synth| synth.output_node());
        for node in self.nodes_of(voice) {
            let is_output = output == Some(NodeId::numbered(node));
            let is_done = self.rng.once_in(if is_output { 12 } else { 2 });
            self.flag(node, is_done);
        }
        self.put(Call::Clear {});
    }

    /// A few voices whose output has a rule, each with the done flag of its first node, and a clearing.
    pub fn rules(&mut self) {
        let Some(bus) = self.add_node(b"Bus", 4, 0) else {
            return;
        };
        let mut voices = vec![];
        for slot in 8..12 {
            let definition = values::two_sources(&mut self.rng);
            self.put(Call::Keep { slot, definition });
            voices.extend(self.spawn_on(slot, bus, false));
        }
        self.sound();
        for &voice in &voices {
            if let Some(&first) = self.nodes_of(voice).first() {
                self.flag(first, true);
            }
        }
        self.put(Call::Clear {});
        self.put(Call::RemoveNode { node: bus });
        for voice in voices {
            self.put(Call::Free { voice });
        }
    }

    /// A report that is refused: of a node that has none, or of a wrong number of channels or of samples.
    pub fn report_refused(&mut self) {
        let block = self.block();
        let live = self.some_host().map_or(unknown_number(), |host| host.id);
        let helper = self.some_helper_node().unwrap_or(unknown_number());
        let dead = self.some_node(1);
        let is_dead = !self.reportable().contains(&dead);
        // A node that lived at the last render would write what is reported of it there (`foresee` of the player), though the
        // report is refused: so a block of its size is reported only of a node that never lived.
        let spare = usize::from(self.has_lived(dead));
        let (node, channels, count) = match self.rng.below(5) {
            0 => (helper, 1, block),
            1 if is_dead => (dead, 2, 2 * block + spare),
            2 => (live, *self.rng.pick(&[0, 3, 255]), block),
            3 => (live, 1, block + 1),
            _ => (live, 2, *self.rng.pick(&[0, 1, 2 * block - 1, 2 * block + 1])),
        };
        let samples = Repeated { count: count as u32, sample: 1.0 };
        let done = values::yes(&mut self.rng);
        self.put(Call::ReportRepeated { node, channels, done, samples });
    }
}
