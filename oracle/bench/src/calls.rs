//! Each call of the store on scenes: what is timed, and whose stack is measured.

use crate::book::{OF_7, OF_24};
use crate::console::{Console, board, full_keyboards, full_keyboards_of_largest, new_console, room_for_a_wish};
use crate::scenes::{
    Kind, OLDEST, QUIETEST, all_faded, all_silent, braid, full_budget, full_budget_of_largest, full_events, full_voices,
    room_for_a_node, room_for_an_event,
};
use crate::stack;
use crate::store::{Store, make};
use crate::time::{lap, median};

/// A call on a scene of a store or of a console, with a goal as a part of a block where there is one.
pub struct Line<S> {
    pub call: &'static str,
    pub scene: &'static str,
    pub rounds: u32,
    pub goal: Option<f64>,
    build: fn() -> Box<S>,
    make: fn(&mut S) -> u32,
}

const fn line<S>(
    call: &'static str,
    scene: &'static str,
    rounds: u32,
    build: fn() -> Box<S>,
    make: fn(&mut S) -> u32,
) -> Line<S> {
    Line { call, scene, rounds, goal: None, build, make }
}

const fn aimed<S>(line: Line<S>, goal: f64) -> Line<S> {
    Line { goal: Some(goal), ..line }
}

fn spawn_7(s: &mut Store) -> u32 {
    s.spawn(&OF_7)
}

fn one_port_left() -> Box<Store> {
    full_budget(OLDEST, 64)
}

pub const STORE: &[Line<Store>] = &[
    line("make", "", 1_000, full_voices, |s| make(&mut s.state, 32, OLDEST, 0)),
    line("add_node", "the 512th", 1_000, room_for_a_node, |s| s.add_node(64)),
    line("remove_node", "of 512, with 1,024 edges", 1_000, braid, |s| {
        s.remove_node(2)
    }),
    line("connect", "an edge more, 64 voices", 1_000, full_voices, |s| s.connect(1, 60, 5)),
    line("connect", "in the place of the first of 1,024 edges", 1_000, braid, |s| s.connect(7, 1, 0)),
    line("disconnect", "the first of 1,024 edges", 1_000, braid, |s| {
        s.disconnect(1, 0)
    }),
    line("set_sink", "node 60 of 509", 1_000, full_voices, |s| s.set_sink(60)),
    line("prepare", "512 nodes, 1,024 edges", 1_000, braid, Store::prepare),
    line("schedule", "the first event", 1_000, full_voices, |s| s.schedule(1, 1, Kind::Value)),
    line("schedule", "the 256th, before all others", 1_000, room_for_an_event, |s| {
        s.schedule(0, 1, Kind::Glide)
    }),
    line("schedule", "in the place of the first of 256", 1_000, || full_events(Kind::Value), |s| {
        s.schedule(0, 1, Kind::Value)
    }),
    line("schedule", "refused, 256 and none of them replaced", 1_000, || full_events(Kind::Value), |s| {
        s.schedule(0, 99, Kind::Value)
    }),
    aimed(line("spawn", "with a steal, 63 voices", 500, one_port_left, spawn_7), 0.1),
    aimed(line("spawn", "the quietest of 63 is stolen", 500, || full_budget(QUIETEST, 64), spawn_7), 0.1),
    aimed(line("spawn", "a steal, 24 nodes, 48 edges, 19 voices", 500, full_budget_of_largest, |s| s.spawn(&OF_24)), 0.1),
    aimed(line("spawn", "on a full bus, one reclaimed", 500, || full_budget(QUIETEST, 63), spawn_7), 0.1),
    aimed(line("spawn", "on a bus of the host's, 63 reclaimed", 100, || full_budget(QUIETEST, 0), spawn_7), 0.1),
    line("spawn_panned", "not managed, 63 voices", 500, one_port_left, |s| {
        s.spawn_panned(&OF_7)
    }),
    line("free_voice", "the first of 64", 1_000, full_voices, |s| {
        s.free_voice(1)
    }),
    line("free_voice", "nobody", 1_000, full_voices, |s| {
        s.free_voice(99)
    }),
    line("set_voice_param", "the last of 64 voices", 1_000, full_voices, |s| {
        s.set_voice_param(64, 0.5)
    }),
    line("set_voice_param_glide", "the last of 64 voices", 1_000, full_voices, |s| {
        s.set_voice_param_glide(64, 0.5)
    }),
    line("report", "a node of the last of 64 voices", 1_000, full_voices, |s| {
        s.report(505, &[0.25; 128])
    }),
    aimed(line("render", "no event, 64 voices", 1_000, full_voices, Store::render), 0.05),
    aimed(line("render", "256 values", 100, || full_events(Kind::Value), Store::render), 0.05),
    aimed(line("render", "256 glides", 100, || full_events(Kind::Glide), Store::render), 0.05),
    aimed(line("render", "256 frees, 64 of them of voices", 100, || full_events(Kind::Free), Store::render), 0.05),
    aimed(line("free_done_synths", "none of 64 voices is removed", 500, full_voices, Store::clear), 0.05),
    aimed(line("free_done_synths", "64 silent voices are removed", 500, all_silent, Store::clear), 0.05),
    aimed(line("free_done_synths", "63 faded and a silent one", 500, all_faded, Store::clear), 0.05),
    line("voice_level", "the last of 64 voices", 1_000, full_voices, |s| {
        s.voice_level(64)
    }),
    line("fade_position", "of a voice that does not fade", 1_000, full_voices, |s| {
        s.fade_position(64)
    }),
    line("voice", "the last of 64", 1_000, full_voices, |s| s.voice(64)),
    line("voice_at", "the last of 64", 1_000, full_voices, |s| s.voice_at(63)),
    line("voices", "", 1_000, full_voices, |s| s.voice_count()),
    line("edges", "", 1_000, full_voices, |s| s.edge_count()),
    line("edge_at", "", 1_000, full_voices, |s| s.edge_at(9)),
    line("processing_order", "", 1_000, full_voices, |s| s.order_length()),
    line("steals", "", 1_000, all_faded, |s| s.steals()),
    line("steal_at", "the last of 63", 1_000, all_faded, |s| s.steal_at(62)),
    line("busiest_steals", "63 records in a block", 1_000, all_faded, |s| s.busiest_steals(128)),
    line("source", "of the last port of the bus, 64 voices", 1_000, full_voices, |s| s.source(0, 63)),
    line("node_record", "the last of 509", 1_000, full_voices, |s| s.node_record(508)),
    line("clock", "", 1_000, full_voices, |s| s.clock()),
    line("page", "64 voices", 1_000, full_voices, |s| s.page(&mut [0; 4501])),
    line("fade_output", "a block", 1_000, full_voices, |s| {
        s.fade_output(1, &[0.5; 128], &[0.5; 240], 7, &mut [0.0; 128])
    }),
    line("bus_sum", "64 inputs", 1_000, full_voices, |s| {
        s.bus_sum(1, &[0.5; 8192], &[1; 64], &mut [0.0; 128])
    }),
    line("whole_fade_output", "a block", 1_000, full_voices, |s| {
        s.whole_fade_output(1, &[1 << 22; 128], &[1 << 23; 240], 7, &mut [0; 128])
    }),
    line("whole_bus_sum", "64 inputs", 1_000, full_voices, |s| {
        s.whole_bus_sum(1, &[1 << 22; 8192], &[1; 64], &mut [0; 128])
    }),
];

/// What a console or a sealed board adds.
pub const CONSOLE: &[Line<Console>] = &[
    line("make_console", "8 keyboards", 1_000, || new_console(32), |c| c.make(32)),
    line("wish", "the 16th of a keyboard, 24 nodes, 48 edges", 500, room_for_a_wish, |c| c.wish(0, &OF_24)),
    aimed(line("turn", "with a steal, 63 voices", 500, full_keyboards, Console::turn), 0.1),
    aimed(line("turn", "a steal, 24 nodes, 48 edges, 19 voices", 500, full_keyboards_of_largest, Console::turn), 0.1),
    line("turn", "empty", 1_000, || new_console(32), Console::turn),
    line("keyboard_count", "", 1_000, full_keyboards, |c| c.keyboard_count()),
    line("waiting_count", "", 1_000, full_keyboards, |c| c.waiting_count(7)),
    line("next_keyboard", "the last of 8", 1_000, full_keyboards, |c| c.next_keyboard()),
    line("seal", "384 nodes, 896 edges", 500, board, |c| c.seal(384, 896)),
];

/// The answer, which is the same every time, and the median of the microseconds. Every round has the scene as it was built.
pub fn time<S: Clone>(line: &Line<S>) -> (u32, f64) {
    let scene = (line.build)();
    let mut store = scene.clone();
    let (mut answers, mut times) = (Vec::new(), Vec::new());
    for _ in 0..line.rounds {
        store.clone_from(&scene);
        let (answer, time) = lap(|| (line.make)(&mut store));
        answers.push(answer);
        times.push(time);
    }
    assert!(answers.iter().all(|a| *a == answers[0]), "the answers differ from one round to the next");
    (answers[0], median(times))
}

/// The bytes of stack that the call needs.
pub fn stack<S>(line: &Line<S>) -> usize {
    let mut store = (line.build)();
    stack::bytes(|| {
        std::hint::black_box((line.make)(&mut store));
    })
}
