//! Scenes of the scope document, and the ends of the format, played on the Rust.

mod entries;

use entries::{PREPARE, RENDER, SPAWN, free_at, host, made, page_scene, script, tone, transcript};
use replay::script::{Call, Definition, EdgeRow, Length, NodeRow, Repeated, Samples, decode};

/// The lines of these calls, without the last one, which counts them.
fn lines(calls: &[Call]) -> Vec<String> {
    let played = transcript(&script(calls));
    let lines = played.strip_suffix(&format!("played {}\n", calls.len())).expect("the last line counts the calls");
    lines.lines().map(str::to_string).collect()
}

#[test]
fn the_page_and_the_clearing_after_it() {
    let mut calls = page_scene();
    let before = calls.len();
    calls.extend([Call::Page { length: Length(58) }, Call::Page { length: Length(59) }, Call::Order {}]);
    calls.extend([RENDER, Call::Clear {}, RENDER, Call::Clear {}]);
    let shown = ["refused 17", "page 59", "voice age port state", "1 48 0 fading", "2 32 1 held", "3 16 2 held"];
    let after = ["order 1 2 4 3 0", "sounding took 0", "removed 0", "sounding took 0", "removed 1"];
    assert_eq!(lines(&calls)[before..], [&shown[..], &after].concat());
}

#[test]
fn a_level_is_that_of_the_block_reported_after_the_render() {
    let mut calls = page_scene();
    let block = [[1.0; 16], [7.0; 16]].concat();
    let report = |samples| Call::Report { node: 2, channels: 2, done: 1, samples: Samples(samples) };
    calls.extend([RENDER, report(vec![1.0]), report(block), Call::Level { voice: 2 }, Call::Level { voice: 4 }]);
    assert_eq!(lines(&calls)[13..], ["sounding took 0", "refused 16", "done", "level 40a00000", "level -"]);
}

#[test]
#[should_panic(expected = "the report of node 2 is not what its generator wrote")]
fn a_report_without_a_render_stops_the_player() {
    let mut calls = page_scene();
    let samples = Repeated { count: 32, sample: 1.0 };
    calls.extend([RENDER, RENDER, Call::ReportRepeated { node: 2, channels: 2, done: 0, samples }]);
    calls.push(Call::ReportRepeated { node: 2, channels: 2, done: 0, samples: Repeated { count: 32, sample: 2.0 } });
    lines(&calls);
}

/// A timed free prepares inside the render: with an unconnected required port that is 13, with a cycle 14.
#[test]
fn a_render_whose_prepare_fails_applies_its_events_and_moves_the_clock() {
    let mut calls = page_scene();
    calls.extend([host(1, 1), PREPARE, free_at(0, 2), RENDER, Call::Voices {}, Call::Clock {}, Call::Order {}]);
    calls.extend([
        Call::Connect { from: 5, to: 5, port: 0 },
        PREPARE,
        free_at(0, 9),
        RENDER,
        Call::Position { voice: 1 },
    ]);
    calls.extend([Call::RemoveNode { node: 5 }, free_at(0, 9), RENDER, Call::Position { voice: 1 }, Call::Order {}]);
    let required = ["node 5", "refused 13", "done", "silent 13 took 1 00", "voices 1 3", "clock 64", "order 1 2 4 3 0"];
    let cycle = ["done", "refused 14", "done", "silent 14 took 1 01", "position 16"];
    let healed = ["done", "done", "sounding took 1 01", "position 32", "order 1 4 3 0"];
    assert_eq!(lines(&calls)[13..], [&required[..], &cycle, &healed].concat());
}

/// The reclaim loop can empty the bus and still end in 12.
#[test]
fn a_spawn_on_a_bus_that_the_host_has_taken() {
    let mut calls = vec![made(8000.0, 16, 2), host(2, 0), host(0, 0), tone(), SPAWN, SPAWN];
    calls.extend([0, 1].map(|port| Call::Connect { from: 1, to: 0, port }));
    calls.extend([SPAWN, Call::Voices {}, Call::Steals {}]);
    assert_eq!(lines(&calls)[8..], ["refused 12", "voices", "steals 2 0 - cut 0 - cut"]);
}

#[test]
fn admission_rejects_with_a_budget_of_nothing() {
    let calls = [made(8000.0, 16, 0), host(1, 0), tone(), SPAWN, Call::Spawn { slot: 0, bus: 0, rank: 0 }, SPAWN];
    assert_eq!(lines(&calls)[3..], ["refused 11", "voice 1", "refused 11"]);
}

#[test]
fn the_last_voice_id_and_the_last_sample() {
    let counters = Call::SetCounters { clock: u64::MAX - 64, voices: u64::MAX - 1, noise: u32::MAX, node: 0 };
    let calls = [host(2, 0), tone(), counters, SPAWN, SPAWN, RENDER, RENDER, Call::State {}];
    let lines = lines(&calls);
    assert_eq!(lines[2..7], ["set", "voice 18446744073709551615", "refused 8", "silent took 0", "refused 15"]);
    assert_eq!(lines[lines.len() - 2..], ["next 2 18446744073709551615", "end"]);
}

/// A spawn of one node needs four ids, though it takes one; host nodes take the ids that are left. A making that is refused leaves the
/// numbers as they are, and the next store counts from 0 again.
#[test]
fn the_last_node_ids() {
    let bus = u32::MAX - 5;
    let spawn = Call::Spawn { slot: 0, bus, rank: 0 };
    let calls = [
        Call::SetCounters { clock: 0, voices: 0, noise: 0, node: bus.into() },
        host(2, 0),
        tone(),
        spawn.clone(),
        spawn.clone(),
        spawn,
        host(0, 0),
        host(0, 0),
        host(0, 0),
        host(0, 0),
        made(8000.0, 0, 1),
        Call::Connect { from: u32::MAX, to: bus, port: 1 },
        Call::Sources { node: bus },
        Call::State {},
        made(8000.0, 16, 1),
        host(0, 0),
    ];
    let lines = lines(&calls);
    let begun = ["set", "node 4294967290", "kept", "voice 1", "voice 2", "refused 8"];
    assert_eq!(lines[..6], begun);
    let added = ["node 4294967293", "node 4294967294", "node 4294967295", "refused 8", "refused 2", "done"];
    assert_eq!(lines[6..12], added);
    assert_eq!(lines[12], "sources 0 4294967291 1 4294967295");
    assert_eq!(lines[lines.len() - 4..], ["next 4294967296 2", "end", "made", "node 0"]);
}

/// Definitions at a limit of the table: a cycle of counted edges is refused, one that a later edge undoes is not.
#[test]
fn the_last_edge_to_a_port_counts() {
    let node = |kind: &[u8]| NodeRow {
        kind: kind.to_vec(),
        ports: 1,
        required: 0,
        takes: 0,
        channels: 1,
        input: 0,
        level: 0,
        amp: 0,
    };
    let keep = |slot, edges: &[EdgeRow]| {
        let (nodes, edges) = (vec![node(b"FmOp"), node(b"Tone")], edges.to_vec());
        Call::Keep { slot, definition: Definition { nodes, edges, params: vec![], output: 0 } }
    };
    let (own, other) = (EdgeRow { from: 0, to: 0, port: 0 }, EdgeRow { from: 1, to: 0, port: 0 });
    let mut calls =
        vec![host(2, 0), Call::SetSink { node: 0 }, keep(3, &[other.clone(), own.clone()]), keep(20, &[own, other])];
    calls.extend([3, 4].map(|slot| Call::Spawn { slot, bus: 0, rank: 0 }));
    // Silence passes through the port that is named `level`, also where it is named `in` and `amp` too.
    let samples = Repeated { count: 64, sample: 0.0 };
    calls.extend([PREPARE, RENDER, Call::ReportRepeated { node: 2, channels: 1, done: 1, samples }, Call::Clear {}]);
    assert_eq!(lines(&calls)[4..], ["refused 9", "voice 1", "done", "sounding took 0", "done", "removed 1"]);
}

#[test]
fn nothing_of_a_malformed_entry_is_played() {
    let whole = script(&[host(1, 0), Call::Clock {}]);
    let counted = |sort: u8, fields: &[u8], count: u32| [&[sort], fields, &count.to_le_bytes(), &[0; 2052]].concat();
    let report = [0, 0, 0, 0, 1, 0];
    for entry in [
        vec![0],
        vec![34],
        vec![3],
        vec![53],
        vec![53, 2, 65],
        vec![54],
        counted(18, &report, 513),
        counted(19, &report, 513),
        counted(32, &[], 4097),
    ] {
        let bytes = [&whole[..], &entry].concat();
        assert_eq!(transcript(&bytes), format!("node 0\nclock 0\nmalformed {}\n", whole.len()));
    }
    assert_eq!(transcript(&[]), "played 0\n");
    assert!(transcript(&counted(18, &report, 512)).starts_with("refused 4\n"));
}

/// A remark is one line whatever its bytes are, changes nothing, and is open on a sealed board.
#[test]
fn a_remark_is_a_line() {
    let remark = |words: &[u8]| Call::Remark { words: words.to_vec() };
    let mut calls =
        vec![host(2, 0), remark(b"a bus ~"), remark(b""), remark(b"\0\n\x1f\x7f\xff"), remark(&[b' '; 255])];
    calls.extend([seal(0, 2, 1, 0, 1, 0), remark(b"sealed")]);
    let spaces = format!("# {}", " ".repeat(255));
    assert_eq!(lines(&calls), ["node 0", "# a bus ~", "# ", "# ?????", &spaces, "sealed", "# sealed"]);
}

#[test]
fn entries_are_read_as_they_were_written() {
    let mut bytes = script(&page_scene());
    bytes.extend(script(&[free_at(1, 2), host(64, u64::MAX), Call::Page { length: Length(4096) }]));
    bytes.extend(script(&[Call::Remark { words: vec![255; 255] }, Call::Remark { words: vec![] }]));
    let (mut at, mut again) = (0, Vec::new());
    while at < bytes.len() {
        let (call, next) = decode(&bytes, at).expect("a whole entry");
        call.encode(&mut again);
        at = next;
    }
    assert_eq!(again, bytes);
}

fn seal(bus: u32, ports: u64, nodes: u64, edges: u64, def_nodes: u64, def_edges: u64) -> Call {
    Call::Seal { bus, ports, nodes, edges, def_nodes, def_edges }
}

/// Of one bus of 2 ports D is at most 167, since 1 + 3 × 170 is 511, and E at most 337, since 3 × 341 is 1,023.
#[test]
fn sealing_accepts_what_fits_and_is_there() {
    let wrong = [
        seal(0, 3, 1, 0, 1, 0),
        seal(0, 2, 2, 0, 1, 0),
        seal(0, 2, 1, 1, 1, 0),
        seal(1, 2, 1, 0, 1, 0),
        seal(0, 2, 1, 0, 168, 0),
        seal(0, 2, 1, 0, 1, 338),
        seal(0, 2, 1, 0, u64::MAX, 0),
        seal(0, 2, 1, 0, 0, u64::MAX),
        seal(0, u64::MAX, u64::MAX, u64::MAX, u64::MAX, u64::MAX),
    ];
    let right = seal(0, 2, 1, 0, 167, 337);
    let calls = [&[host(2, 0)], &wrong[..], &[right.clone(), right]].concat();
    assert_eq!(lines(&calls)[1..], [&["refused 27"; 9][..], &["sealed", "refused 28"]].concat());
    for ports in [1, 2, 31, 32] {
        let answer = if (2..=31).contains(&ports) { "sealed" } else { "refused 27" };
        assert_eq!(lines(&[host(ports, 0), seal(0, ports.into(), 1, 0, 0, 0)])[1], answer);
    }
}

/// 28 comes first, also where there is no such node, rank, definition or keyboard; a new store is open.
#[test]
fn a_seal_closes_and_leaves_open() {
    let mut calls = vec![made(8000.0, 16, 1), host(2, 0), tone(), seal(0, 2, 1, 0, 1, 0)];
    calls.extend([host(65, 0), Call::RemoveNode { node: 9 }, Call::Connect { from: 9, to: 9, port: 9 }]);
    calls.extend([Call::Disconnect { to: 9, port: 0 }, Call::SetSink { node: 9 }]);
    calls.extend([Call::Spawn { slot: 0, bus: 0, rank: 0 }, Call::SpawnManaged { slot: 0, bus: 1, rank: 9 }]);
    calls.push(Call::Wish { slot: 0, keyboard: 9, managed: 0, bus: 0, pan: 0.0, rank: 0 });
    assert_eq!(lines(&calls)[3..], [&["sealed"][..], &["refused 28"; 8]].concat());
    let before = calls.len();
    calls.push(Call::Wish { slot: 0, keyboard: 9, managed: 1, bus: 0, pan: 0.0, rank: 0 });
    calls.extend([Call::SpawnManaged { slot: 0, bus: 0, rank: 9 }, SPAWN, SPAWN, SPAWN, Call::Voices {}]);
    calls.extend([made(8000.0, 16, 1), host(2, 0), Call::Spawn { slot: 0, bus: 0, rank: 0 }]);
    let open = ["refused 24", "refused 26", "voice 1", "voice 2", "voice 3", "voices 2 3"];
    assert_eq!(lines(&calls)[before..], [&open[..], &["made", "node 0", "voice 1"]].concat());
}
