//! Values, glides, events and reports.

use microsynth::curve::{GlideShape, GlideSpace};
use microsynth::node::NodeId;
use microsynth::scheduler::{Event, EventAction, VoiceId};
use scripted::limits::{self, Refusal, check};
use scripted::name;

use crate::outcomes;
use crate::script::{Call, Glide};
use crate::store::Store;

/// A report of a node.
pub(crate) struct Report {
    pub node: NodeId,
    pub channels: usize,
    pub is_done: bool,
    pub samples: Vec<f32>,
}

/// The report that an entry makes, if it makes one.
pub(crate) fn report_of(call: &Call) -> Option<Report> {
    let (node, channels, done, samples) = match call {
        Call::Report { node, channels, done, samples } => (node, channels, done, samples.0.clone()),
        Call::ReportRepeated { node, channels, done, samples } => {
            (node, channels, done, vec![samples.sample; samples.count as usize])
        }
        _ => return None,
    };
    Some(Report { node: NodeId::numbered(*node), channels: (*channels).into(), is_done: *done != 0, samples })
}

fn shape_of(glide: &Glide) -> GlideShape {
    match glide.shape {
        0 => GlideShape::Hold,
        1 => GlideShape::Linear,
        2 => GlideShape::Sine,
        _ => GlideShape::Exponential(glide.curve),
    }
}

fn space_of(glide: &Glide) -> GlideSpace {
    if glide.space == 0 { GlideSpace::Raw } else { GlideSpace::Pitch }
}

fn action_of(action: u8, voice: VoiceId, param: String, glide: &Glide) -> EventAction {
    match action {
        0 => EventAction::SetParam { voice, param, value: glide.target },
        1 => EventAction::SetParamGlide {
            voice,
            param,
            target: glide.target,
            glide_secs: glide.seconds,
            shape: shape_of(glide),
            space: space_of(glide),
        },
        2 => EventAction::SetGate { voice, value: glide.target },
        _ => EventAction::FreeSynth { voice },
    }
}

/// The event that an entry schedules, if it is such an entry.
pub fn event_of(call: &Call) -> Option<Event> {
    let Call::Schedule { time, voice, action, ref name, ref glide } = *call else { return None };
    Some(Event { time, action: action_of(action, VoiceId(voice), name::text(name), glide) })
}

impl Store {
    pub(crate) fn value(&mut self, voice: u64, param: &[u8], value: f32) -> u8 {
        let (voice, param) = (VoiceId(voice), name::text(param));
        let missing = self.missing(voice, &param);
        outcomes::number(missing, self.engine.set_voice_param(voice, &param, value))
    }

    pub(crate) fn glide(&mut self, voice: u64, param: &[u8], glide: &Glide) -> u8 {
        let (shape, space) = (shape_of(glide), space_of(glide));
        let (voice, param) = (VoiceId(voice), name::text(param));
        let missing = self.missing(voice, &param);
        let said = self.engine.set_voice_param_glide(voice, &param, glide.target, glide.seconds, shape, space);
        outcomes::number(missing, said)
    }

    /// What the store accepts the Rust is given too; it keeps it.
    pub(crate) fn schedule(&mut self, call: &Call) -> Result<(), Refusal> {
        let event = event_of(call).expect("the entry schedules an event");
        self.queue.schedule(&event)?;
        self.engine.scheduler_mut().schedule(event);
        Ok(())
    }

    /// 4 if the node is unknown or dead, or a voice's fade, pan or constant node, which are not ours; 16.
    pub(crate) fn report(&mut self, call: &Call) -> Result<(), Refusal> {
        let report = report_of(call).expect("the entry is a report");
        check(self.graph().node_spec(report.node).is_some(), 4)?;
        let part = self.parts.get(&report.node).ok_or(4)?;
        limits::lent_block(report.channels, self.block(), report.samples.len())?;
        let is_same = self.written(report.node).eq(report.samples.iter().map(|x| x.to_bits()));
        assert!(is_same, "the report of node {} is not what its generator wrote", report.node.number());
        part.handle.state().done = report.is_done;
        Ok(())
    }

    /// The patterns of a node's last block, channel by channel.
    fn written(&self, node: NodeId) -> impl Iterator<Item = u32> {
        let buffer = self.graph().node_output(node).expect("the node is live");
        (0..buffer.num_channels()).flat_map(|c| buffer.channel(c).samples().iter().map(|x| x.to_bits()))
    }
}
