//! Prepare and render.

use std::fmt;
use std::panic::{AssertUnwindSafe, catch_unwind};

use microsynth::node::NodeId;
use microsynth::scheduler::{EventAction, VoiceId};
use scripted::graph;
use scripted::limits::{self, Refusal};

use crate::orders::report_of;
use crate::outcomes::outcomes;
use crate::player::{LIST, list_length};
use crate::script::Call;
use crate::store::{Answer, Store, nodes_of};

/// What a render answers: a block or none, and the number of the prepare in it that failed.
pub(crate) enum Rendered {
    Sounding,
    Silent,
    Unprepared(Refusal),
}

impl fmt::Display for Rendered {
    fn fmt(&self, f: &mut fmt::Formatter<'_>) -> fmt::Result {
        match self {
            Rendered::Sounding => f.write_str("sounding"),
            Rendered::Silent => f.write_str("silent"),
            Rendered::Unprepared(number) => write!(f, "silent {number}"),
        }
    }
}

/// The entries of a list in hexadecimal, a space before them if there are any.
pub(crate) fn list_digits(list: &[u8]) -> String {
    let digits: String = list.iter().map(|entry| format!("{entry:02x}")).collect();
    if digits.is_empty() { digits } else { format!(" {digits}") }
}

impl Store {
    /// Prepares where the Rust would neither panic, which is 13, nor leave a node out, which is 14.
    pub(crate) fn prepare(&mut self) -> Result<(), Refusal> {
        graph::trial(self.engine.graph_mut())?;
        self.engine.prepare();
        self.check_sources();
        Ok(())
    }

    /// Renders, and writes what became of the events into the list. `upcoming` is what the script has next.
    pub(crate) fn render(&mut self, list: &mut [u8], upcoming: &[Call]) -> Answer {
        let deadline = self.engine.sample_offset().checked_add(self.block() as u64).ok_or(15)?;
        limits::check(list.len() >= LIST, 17)?;
        self.foresee(upcoming);
        assert_eq!(self.engine.scheduler().len(), self.queue.kept(), "the Rust keeps what was accepted");
        let taken = self.queue.take_before(deadline);
        let foretold = self.foretell(deadline);
        let rendered = match self.failing_prepare(deadline) {
            Some(number) => {
                self.render_unprepared(deadline, number);
                Rendered::Unprepared(number)
            }
            None => self.render_whole(),
        };
        // The list shows only the events that no later one has replaced.
        let outcomes = taken.iter().zip(outcomes(&foretold)).filter(|(event, _)| event.is_left);
        let outcomes: Vec<u8> = outcomes.map(|(_, number)| number).collect();
        list[..outcomes.len()].copy_from_slice(&outcomes);
        Ok(format!("{rendered} took {}{}", outcomes.len(), list_digits(&outcomes)))
    }

    /// The generators write in a render what the script reports of them afterwards, up to the next render or making.
    fn foresee(&mut self, upcoming: &[Call]) {
        let is_next = |call: &Call| match *call {
            Call::Render {} | Call::Make { .. } | Call::MakeWithTable { .. } | Call::MakeConsole { .. } => true,
            Call::RenderLent { length, .. } => list_length(length) >= LIST,
            _ => false,
        };
        let end = upcoming.iter().position(is_next).unwrap_or(upcoming.len());
        // The first report of a node is the last to be set.
        for report in upcoming[..end].iter().rev().filter_map(report_of) {
            let is_block = limits::lent_block(report.channels, self.block(), report.samples.len()).is_ok();
            if let Some(part) = self.parts.get(&report.node).filter(|_| is_block) {
                part.handle.state().samples = report.samples;
            }
        }
    }

    /// The number of the prepare inside this render, if there is one and it fails: tried on the graph as the frees among
    /// the events will leave it.
    fn failing_prepare(&mut self, deadline: u64) -> Option<Refusal> {
        let due = self.engine.scheduler().pending().iter().filter(|event| event.time < deadline);
        let freed = |action: &EventAction| match action {
            EventAction::FreeSynth { voice } => Some(*voice),
            _ => None,
        };
        let freed: Vec<VoiceId> = due.filter_map(|event| freed(&event.action)).collect();
        if freed.is_empty() {
            return None;
        }
        let going = self.engine.voice_rows().filter(|row| freed.contains(&row.id));
        let nodes: Vec<NodeId> = going.flat_map(|row| nodes_of(&row)).collect();
        self.engine.graph_mut().without(&nodes, |graph| graph::trial(graph).err())
    }

    fn render_whole(&mut self) -> Rendered {
        let is_sounding = self.engine.render().is_some();
        if !self.graph().is_dirty() {
            self.check_sources();
        }
        self.check_log(is_sounding);
        if is_sounding { Rendered::Sounding } else { Rendered::Silent }
    }

    /// A render whose prepare fails. The Rust panics in it before the clock moves (13), or sounds in the order of the
    /// nodes that it did reach (14). Here the events apply, the clock moves, and nothing sounds: so the Rust renders
    /// without its sink, the clock is moved for it where it panicked, and its graph gets back the order and the sources
    /// that the failed prepare has overwritten.
    fn render_unprepared(&mut self, deadline: u64, number: Refusal) {
        let muted = self.engine.graph_mut().mute();
        let render = AssertUnwindSafe(|| self.engine.render().is_some());
        let rendered = graph::quietly(|| catch_unwind(render));
        let is_partial = self.graph().processing_order().len() < self.graph().live_nodes().len();
        match rendered {
            Err(_) => assert_eq!(number, 13, "the Rust panics where no required port is unconnected"),
            Ok(is_sounding) => assert!(number == 14 && is_partial && !is_sounding, "the Rust prepares a cycle"),
        }
        self.engine.graph_mut().unmute(muted);
        self.engine.set_sample_offset(deadline);
    }

    /// The Rust must have resolved, for every port of a live node, the source that the edges say.
    fn check_sources(&self) {
        let graph = self.graph();
        for id in graph.live_nodes() {
            let mut said = vec![None; graph.resolved_sources(id).len()];
            for edge in graph.all_edges().iter().filter(|edge| edge.to == id) {
                said[edge.to_input] = Some(edge.from);
            }
            assert_eq!(graph.resolved_sources(id), said, "the sources of node {}", id.number());
        }
    }

    /// Every generator must have been processed once, in the order of the last prepare, if the render sounded; else none.
    fn check_log(&self, is_sounding: bool) {
        let order = self.graph().processing_order().iter().filter(|id| is_sounding && self.parts.contains_key(id));
        assert!(order.map(|id| id.number() as u32).eq(self.log.take()), "the order in which nodes are processed");
    }
}
