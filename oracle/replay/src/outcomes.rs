//! What became of a value, a glide or a free, in the numbers of Paper 1: 0 applied, 1 no such voice, 2 no such parameter, 3 node takes none of
//! that sort. The Rust says yes or no; which no it is, its tables tell.

use microsynth::scheduler::{Event, EventAction, VoiceId};

use crate::store::Store;

/// Why the Rust has to say no, as far as its tables tell: 1 or 2.
pub(crate) type Missing = Option<u8>;

/// The number of an answer.
pub(crate) fn number(missing: Missing, is_yes: bool) -> u8 {
    match missing {
        None if is_yes => 0,
        None => 3,
        Some(number) => {
            assert!(!is_yes, "the Rust says yes where {number} holds");
            number
        }
    }
}

/// An event that a render will take: what its tables lack for it, and whether its node takes the sort.
pub(crate) struct Foretold {
    missing: Missing,
    takes: bool,
}

impl Store {
    pub(crate) fn missing(&self, voice: VoiceId, param: &str) -> Missing {
        match self.engine.voice_synth(voice) {
            None => Some(1),
            Some(synth) => synth.param_node(param).is_none().then_some(2),
        }
    }

    pub(crate) fn free(&mut self, voice: VoiceId) -> u8 {
        let is_known = self.engine.voice_synth(voice).is_some();
        self.engine.free_voice(voice);
        number((!is_known).then_some(1), is_known)
    }

    /// The events of a render that ends there, each as the tables will be when it happens: a free takes its voice away from those
    /// behind it.
    pub(crate) fn foretell(&self, deadline: u64) -> Vec<Foretold> {
        let mut freed = vec![];
        let due = self.engine.scheduler().pending().iter().take_while(|event| event.time < deadline);
        due.map(|event| self.foretell_event(event, &mut freed)).collect()
    }

    fn foretell_event(&self, event: &Event, freed: &mut Vec<VoiceId>) -> Foretold {
        let order = |voice: &VoiceId, param: &str, is_glide: bool| match freed.contains(voice) {
            true => Foretold { missing: Some(1), takes: false },
            false => Foretold { missing: self.missing(*voice, param), takes: self.takes(*voice, param, is_glide) },
        };
        match &event.action {
            EventAction::SetParam { voice, param, .. } => order(voice, param, false),
            EventAction::SetGate { voice, .. } => order(voice, "gate", false),
            EventAction::SetParamGlide { voice, param, .. } => order(voice, param, true),
            EventAction::FreeSynth { voice } => {
                let is_known = self.engine.voice_synth(*voice).is_some() && !freed.contains(voice);
                freed.push(*voice);
                Foretold { missing: (!is_known).then_some(1), takes: is_known }
            }
        }
    }

    fn takes(&self, voice: VoiceId, param: &str, is_glide: bool) -> bool {
        let node = self.engine.voice_synth(voice).and_then(|synth| synth.param_node(param));
        let part = node.and_then(|node| self.parts.get(&node));
        part.is_some_and(|part| if is_glide { part.takes_glides } else { part.takes_values })
    }
}

/// The outcomes of the events that a render took. The Rust as it was published keeps no answers: there the node's sorts stand for them.
pub(crate) fn outcomes(foretold: &[Foretold]) -> Vec<u8> {
    let said = microsynth::outcomes::take();
    if microsynth::IS_PUBLISHED {
        return foretold.iter().map(|event| number(event.missing, event.takes)).collect();
    }
    assert_eq!(said.len(), foretold.len(), "the events that the Rust has taken");
    foretold.iter().zip(said).map(|(event, is_yes)| number(event.missing, is_yes)).collect()
}
