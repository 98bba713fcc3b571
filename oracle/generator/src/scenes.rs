//! Scenes: a newly made store and the calls on it. A script is a row of scenes.

use replay::script::Call;
use seeded::rng::Rng;

use crate::aims::refused_making;
use crate::crowds::{big_console, edges_brink, full_graph, many_events, many_voices, nodes_brink};
use crate::keyboards::make_console;
use crate::moves::Move::{self, *};
use crate::script::Script;
use crate::seals::{any_board, exact_board, last_board, late_board, small_board};
use crate::values::{self, Config};
use crate::writer::Writer;

/// How likely each move is.
type Weights = &'static [(Move, usize)];

pub struct Scene {
    begin: fn(&mut Writer),
    weights: Weights,
    /// How often it is chosen.
    likely: usize,
}

/// The fewest and the most calls of a scene.
const FEWEST: usize = 60;
const MOST: usize = 500;

const MIXED: Weights = &[
    (Spawn, 40),
    (Sound, 28),
    (Render, 8),
    (Prepare, 4),
    (Clear, 10),
    (Free, 6),
    (Order, 24),
    (Event, 16),
    (Read, 20),
    (Connect, 8),
    (Disconnect, 5),
    (Add, 5),
    (Remove, 2),
    (Sink, 2),
    (Keep, 3),
    (Limits, 4),
    (Hush, 2),
    (ReportAgain, 6),
    (ReportRefused, 3),
    (TakePort, 4),
    (RemoveBus, 1),
    (Squeeze, 1),
    (FailingFree, 1),
    (Cycle, 1),
    (Refusals, 1),
    (Page, 1),
];

const STEALING: Weights = &[
    (Spawn, 40),
    (Sound, 8),
    (Render, 4),
    (Clear, 3),
    (Free, 2),
    (Read, 5),
    (ReportAgain, 2),
    (TakePort, 3),
    (Disconnect, 1),
    (Squeeze, 2),
    (RemoveBus, 1),
    (Event, 3),
];

const LISTENING: Weights = &[(Spawn, 14), (Sound, 20), (Read, 10), (Order, 5), (ReportAgain, 3), (Clear, 3), (Keep, 1)];

const SILENCE: Weights = &[
    (Spawn, 14),
    (Limits, 10),
    (Sound, 12),
    (Hush, 12),
    (Rules, 20),
    (ReportAgain, 4),
    (Clear, 3),
    (Keep, 6),
    (Read, 3),
    (Event, 2),
];

const WIRING: Weights = &[
    (Add, 8),
    (Connect, 30),
    (Disconnect, 8),
    (Remove, 4),
    (Sink, 3),
    (Prepare, 10),
    (Sound, 8),
    (Render, 2),
    (Read, 10),
    (Spawn, 5),
    (Cycle, 2),
    (TakePort, 2),
];

const TIMING: Weights = &[
    (Event, 40),
    (Sound, 12),
    (Render, 6),
    (Spawn, 10),
    (Order, 5),
    (FailingFree, 1),
    (Cycle, 1),
    (Read, 5),
    (Free, 2),
];

const CROSSING: Weights = &[(Spawn, 10), (Sound, 10), (Read, 2)];

const FADING: Weights = &[(Spawn, 6), (Sound, 12), (Clear, 12), (Read, 6), (Render, 1)];

const KEYBOARDS: Weights = &[
    (Wish, 40),
    (Turn, 40),
    (Rush, 6),
    (Crowd, 2),
    (Waiting, 6),
    (Sound, 16),
    (Spawn, 6),
    (Clear, 4),
    (Free, 3),
    (Keep, 5),
    (Order, 4),
    (Event, 3),
    (Read, 5),
    (TakePort, 2),
    (RemoveBus, 1),
    (Squeeze, 1),
];

const SEALED: Weights = &[
    (Spawn, 60),
    (Near, 20),
    (Flood, 1),
    (Seal, 4),
    (Wish, 14),
    (Turn, 16),
    (Rush, 1),
    (Crowd, 1),
    (Waiting, 2),
    (Sound, 18),
    (Render, 4),
    (Prepare, 3),
    (Clear, 8),
    (Free, 6),
    (Order, 8),
    (Event, 8),
    (Read, 8),
    (Page, 1),
    (Hush, 2),
    (ReportAgain, 3),
    (ReportRefused, 1),
    (Add, 3),
    (Remove, 3),
    (Connect, 3),
    (Disconnect, 3),
    (Sink, 3),
    (Keep, 2),
    (Limits, 4),
    (TakePort, 1),
    (RemoveBus, 1),
    (Refusals, 1),
];

pub const SCENES: [Scene; 19] = [
    Scene { begin: mixed, weights: MIXED, likely: 20 },
    Scene { begin: stealing, weights: STEALING, likely: 12 },
    Scene { begin: listening, weights: LISTENING, likely: 8 },
    Scene { begin: silence, weights: SILENCE, likely: 14 },
    Scene { begin: mixed, weights: WIRING, likely: 6 },
    Scene { begin: mixed, weights: TIMING, likely: 6 },
    Scene { begin: fading, weights: FADING, likely: 6 },
    Scene { begin: crossing_fades, weights: CROSSING, likely: 6 },
    Scene { begin: long_fades, weights: STEALING, likely: 3 },
    Scene { begin: last_samples, weights: MIXED, likely: 3 },
    Scene { begin: last_voices, weights: STEALING, likely: 3 },
    Scene { begin: last_nodes, weights: MIXED, likely: 3 },
    Scene { begin: full_graph, weights: MIXED, likely: 2 },
    Scene { begin: big_console, weights: WIRING, likely: 1 },
    Scene { begin: nodes_brink, weights: MIXED, likely: 2 },
    Scene { begin: edges_brink, weights: MIXED, likely: 2 },
    Scene { begin: many_voices, weights: STEALING, likely: 2 },
    Scene { begin: many_events, weights: TIMING, likely: 2 },
    Scene { begin: keyboards, weights: KEYBOARDS, likely: 12 },
];

/// The scenes of boards that are sealed, which stand in scripts of their own.
pub const BOARDS: [Scene; 5] = [
    Scene { begin: any_board, weights: SEALED, likely: 6 },
    Scene { begin: small_board, weights: SEALED, likely: 3 },
    Scene { begin: exact_board, weights: SEALED, likely: 2 },
    Scene { begin: late_board, weights: SEALED, likely: 2 },
    Scene { begin: last_board, weights: SEALED, likely: 1 },
];

impl Scene {
    /// Plays a scene of about so many calls.
    fn play(&self, writer: &mut Writer, calls: usize) {
        let end = writer.calls() + calls;
        (self.begin)(writer);
        while writer.calls() < end {
            let (which, _) = *writer.rng.weighted(self.weights, |(_, weight)| *weight);
            writer.make_move(which);
            writer.state_if_due();
        }
        writer.state();
    }
}

/// The script with this number of a seed, of about so many calls.
pub fn script(seed: u64, number: usize, calls: usize) -> Script {
    let writer = Writer::new(Rng::new(seed, &format!("script {number}")));
    row_of_scenes(writer, calls, |_| &SCENES)
}

/// A script of sealed boards, with another store between them now and then, which no seal closes.
pub fn sealed_script(seed: u64, number: usize, calls: usize) -> Script {
    let writer = Writer::new(Rng::new(seed, &format!("sealed script {number}")));
    row_of_scenes(writer, calls, |rng| if rng.once_in(10) { &SCENES } else { &BOARDS })
}

/// A row of about so many calls, each scene from those that are chosen then.
fn row_of_scenes(mut writer: Writer, calls: usize, choose: impl Fn(&mut Rng) -> &'static [Scene]) -> Script {
    keep_all(&mut writer);
    while writer.calls() < calls {
        let scenes = choose(&mut writer.rng);
        let scene = writer.rng.weighted(scenes, |scene| scene.likely);
        let length = writer.rng.within(FEWEST, MOST);
        scene.play(&mut writer, length);
    }
    if writer.rng.once_in(4) {
        writer.break_off();
    }
    writer.finish()
}

/// A short scene by itself: the scenes of rising numbers take turns.
pub fn short(seed: u64, number: usize) -> Script {
    short_of(seed, &format!("scene {number}"), &SCENES[number % SCENES.len()])
}

/// The same of a sealed board.
pub fn short_board(seed: u64, number: usize) -> Script {
    short_of(seed, &format!("board {number}"), &BOARDS[number % BOARDS.len()])
}

fn short_of(seed: u64, name: &str, scene: &Scene) -> Script {
    let mut writer = Writer::new(Rng::new(seed, name));
    keep_small(&mut writer);
    scene.play(&mut writer, FEWEST);
    writer.finish()
}

/// The big console by itself, the same for every seed: it always stands in the recorded script.
pub fn console() -> Script {
    let mut writer = Writer::new(Rng::new(0, "big console"));
    big_console(&mut writer);
    writer.finish()
}

/// Fills the slots but the last.
fn keep_all(writer: &mut Writer) {
    for slot in 0..15 {
        let n = writer.rng.below(32);
        let definition = match slot {
            0 => values::tone(),
            1..8 => values::definition(&mut writer.rng, n),
            _ => values::edge_definition(&mut writer.rng),
        };
        writer.put(Call::Keep { slot, definition });
    }
}

/// Fills the slots but the last with definitions of few nodes, or of one.
fn keep_small(writer: &mut Writer) {
    for slot in 0..15 {
        let n = writer.rng.within(2, 15);
        let definition = match (slot, writer.rng.below(3)) {
            (1..8, 0) => values::definition(&mut writer.rng, n),
            (1..8, _) => values::two_sources(&mut writer.rng),
            (8..15, 0) => values::edge_definition(&mut writer.rng),
            _ => values::tone(),
        };
        writer.put(Call::Keep { slot, definition });
    }
}

/// A store made so, after a making that was refused, perhaps.
pub fn make(writer: &mut Writer, config: Config) {
    if writer.rng.once_in(4) {
        let refused = refused_making(&mut writer.rng);
        writer.put(refused);
    }
    writer.done_once_in = 8;
    let call = config.call(&mut writer.rng);
    writer.put(call);
}

/// A store with a few definitions kept anew, buses and a sink.
fn furnish(writer: &mut Writer, config: Config) {
    make(writer, config);
    dress(writer);
}

/// A few definitions kept anew, buses and a sink.
fn dress(writer: &mut Writer) {
    for _ in 0..writer.rng.below(4) {
        writer.keep();
    }
    for _ in 0..writer.rng.within(1, 3) {
        writer.add_bus();
    }
    let sink = writer.some_node(12);
    writer.put(Call::SetSink { node: sink });
}

impl Writer {
    /// Some moves of a store with keyboards.
    pub fn live_first(&mut self) {
        for _ in 0..self.rng.within(5, 25) {
            let (which, _) = *self.rng.weighted(KEYBOARDS, |(_, weight)| *weight);
            self.make_move(which);
        }
    }
}

/// A store with keyboards.
fn keyboards(writer: &mut Writer) {
    let config = Config::random(&mut writer.rng);
    make_console(writer, config);
    dress(writer);
}

pub fn mixed(writer: &mut Writer) {
    let config = Config::random(&mut writer.rng);
    furnish(writer, config);
}

fn stealing(writer: &mut Writer) {
    let mut config = Config::random(&mut writer.rng);
    config.budget = Some(writer.rng.within(1, 4) as u32);
    config.policy = writer.rng.within(1, 3) as u8;
    furnish(writer, config);
}

fn listening(writer: &mut Writer) {
    let mut config = Config::random(&mut writer.rng);
    config.budget = Some(writer.rng.within(2, 6) as u32);
    config.policy = 3;
    furnish(writer, config);
}

/// Few voices are stolen, so that silence removes them.
fn silence(writer: &mut Writer) {
    let mut config = Config::random(&mut writer.rng);
    config.budget = None;
    make(writer, config);
    writer.done_once_in = 4;
    if let Some(node) = writer.add_node(b"Bus", 12, 0) {
        writer.put(Call::SetSink { node });
    }
}

/// Long fades that do not begin in voice order, on a bus that they fill.
fn crossing_fades(writer: &mut Writer) {
    let budget = writer.rng.within(2, 4) as u32;
    let (block, per_group) = (writer.rng.within(1, 4) as u32, writer.rng.flag());
    make(writer, Config { rate: 384_000.0, block, budget: Some(budget), policy: 3, per_group, has_table: false });
    writer.put(Call::Keep { slot: 0, definition: values::tone() });
    let ports = budget + writer.rng.within(2, 7) as u32;
    if let Some(node) = writer.add_node(b"Bus", ports, 0) {
        writer.put(Call::SetSink { node });
    }
}

/// Short fades, most of them of a length half way between two numbers, with blocks of one or two samples, so that a
/// clearing meets the very end of each.
fn fading(writer: &mut Writer) {
    let mut config = Config::random(&mut writer.rng);
    let half = 200 * writer.rng.below(12) + 100;
    if !config.has_table {
        config.rate = *writer.rng.pick(&[half, half, half - 1, half + 1, half + 100]) as f32;
    }
    config.block = writer.rng.within(1, 2) as u32;
    config.budget = Some(writer.rng.within(1, 3) as u32);
    config.policy = writer.rng.within(1, 3) as u8;
    furnish(writer, config);
}

/// Fades that outlast more than 64 steals on another bus, and are reclaimed then.
fn long_fades(writer: &mut Writer) {
    let per_group = writer.rng.flag();
    let policy = writer.rng.within(1, 3) as u8;
    make(writer, Config { rate: 384_000.0, block: 1, budget: Some(1), policy, per_group, has_table: false });
    writer.put(Call::Keep { slot: 0, definition: values::tone() });
    let (Some(first), Some(second)) = (writer.add_node(b"Bus", 2, 0), writer.add_node(b"Bus", 3, 0)) else {
        return;
    };
    writer.put(Call::SetSink { node: second });
    for _ in 0..2 {
        writer.spawn_on(0, first, true);
    }
    for _ in 0..writer.rng.within(64, 70) {
        writer.spawn_on(0, second, true);
        if writer.rng.once_in(8) {
            writer.sound();
        }
    }
    writer.put(Call::Steals {});
    for _ in 0..3 {
        writer.spawn_on(0, first, true);
    }
    writer.state();
}

/// The clock near its end.
fn last_samples(writer: &mut Writer) {
    mixed(writer);
    let last = writer.block() * writer.rng.within(0, 30) + writer.rng.below(3);
    let (voices, noise) = (writer.voice_ids(), u32::MAX - writer.rng.below(6) as u32);
    writer.put(Call::SetCounters { clock: u64::MAX - last as u64, voices, noise, node: 0 });
}

/// The voice ids and the noise sequence near their ends.
fn last_voices(writer: &mut Writer) {
    stealing(writer);
    let voices = u64::MAX - writer.rng.below(40) as u64;
    let (clock, noise) = (writer.clock() + writer.rng.below(1000) as u64, u32::MAX - writer.rng.below(6) as u32);
    writer.put(Call::SetCounters { clock, voices, noise, node: 0 });
}

/// The node ids near their end, before the store has a node.
fn last_nodes(writer: &mut Writer) {
    let config = Config::random(&mut writer.rng);
    make(writer, config);
    let left = *writer.rng.pick(&[2, 5, 9, 20, 60, 120]) + writer.rng.below(6) as u64;
    leave_nodes(writer, left);
    dress(writer);
}

/// Sets the next node id so that so many are left.
pub fn leave_nodes(writer: &mut Writer, left: u64) {
    let (clock, voices) = (writer.clock(), writer.voice_ids());
    writer.put(Call::SetCounters { clock, voices, noise: 0, node: (1 << 32) - left });
}
