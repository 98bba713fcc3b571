//! The lines of voices, and the page.

use microsynth::engine::VoiceRow;
use scripted::limits::check;
use scripted::words::{hex32, or_dash, row};

use crate::store::{Answer, Store, bus_of, feeder};

impl Store {
    fn state_word(&self, voice: &VoiceRow<'_>) -> &'static str {
        let is_tracked = self.tracked().contains(&voice.id);
        assert!(!is_tracked || voice.fade.is_none(), "a fading voice is tracked");
        match (voice.fade, is_tracked) {
            (Some(_), _) => "fading",
            (None, true) => "held",
            (None, false) => "loose",
        }
    }

    /// The record of a voice: all of its line but the port that it feeds now and its level.
    pub(crate) fn voice_record(&self, voice: &VoiceRow<'_>) -> String {
        let birth = &self.births[&voice.id];
        let ids = voice.synth.node_ids();
        let first = ids[0].number();
        assert!(ids.iter().map(|id| id.number()).eq(first..first + ids.len()), "a voice's nodes have ids in a row");
        let numbers = [
            voice.id.0,
            voice.born,
            bus_of(voice).number() as u64,
            first as u64,
            ids.len() as u64,
            voice.synth.output_node().number() as u64,
            voice.pan.is_some().into(),
            birth.port as u64,
            birth.sequence.into(),
            // its rank, which the Rust does not know
            0,
        ];
        let fade = voice.fade.map(|(node, start, number)| {
            let position = self.graph().fade_position(node);
            row("", [node.number() as u64, start, position, number as u64])
        });
        format!("{} {}{}", row("voice", numbers), self.state_word(voice), fade.unwrap_or_default())
    }

    /// The port of its bus that the voice's fade, pan node or output feeds now.
    fn port_now(&self, voice: &VoiceRow<'_>) -> Option<usize> {
        let source = voice.fade.map_or(feeder(voice), |(fade, ..)| fade);
        self.graph().input_slot_from(source, bus_of(voice))
    }

    pub(crate) fn voice_line(&self, voice: &VoiceRow<'_>) -> String {
        let port = self.port_now(voice);
        let level = self.engine.voice_level(voice.id).map(hex32);
        format!("{} {} {}", self.voice_record(voice), or_dash(port), or_dash(level))
    }

    /// The length of the page and its own lines; 17 if the buffer is shorter.
    pub(crate) fn page_lines(&self, buffer: usize) -> Answer {
        let page = self.page();
        check(page.len() <= buffer, 17)?;
        Ok(format!("page {}\n{}", page.len(), page.trim_end()))
    }

    /// "a header and a line for each voice in voice order: id, clock less birth, port ..., state"; by Paper 4 the port is the one that it
    /// feeds now, "or `-` if none".
    fn page(&self) -> String {
        let mut page = "voice age port state\n".to_string();
        for voice in self.engine.voice_rows() {
            let age = self.engine.sample_offset().saturating_sub(voice.born);
            let (port, state) = (or_dash(self.port_now(&voice)), self.state_word(&voice));
            page += &format!("{} {age} {port} {state}\n", voice.id.0);
        }
        page
    }
}
