//! Departures 7, 8 and 13: the limits that the Rust has not.

use std::iter;
use std::panic::{AssertUnwindSafe, catch_unwind};

use replay::script::{Call, Definition, Length, ParamRow, Samples};

use crate::engines;
use crate::entries::{PREPARE, RENDER, SPAWN, free_at, host, made, page_scene, script, tone, transcript, value_at};
use crate::rows::{Row, alone, compare, departs, same};

fn making(rate: f32, block: u32, budget: u32, number: u8) -> Row {
    departs(made(rate, block, budget), &format!("refused {number}"), "made")
}

#[test]
fn departure_7_making() {
    let rows = [
        same(made(1.0, 1, 0), "made"),
        same(made(384_000.0, 128, 64), "made"),
        making(44_100.5, 64, 1, 1),
        making(384_001.0, 64, 1, 1),
        making(48_000.0, 64, 65, 3),
        making(48_000.0, 0, 1, 2),
        making(48_000.0, 129, 1, 2),
        // The store is the one before; the Rust has a block of 129, for which its buffers have no room.
        same(host(0, 0), "node 0"),
        same(Call::SetSink { node: 0 }, "done"),
    ];
    let mut engine = compare("07-making", rows);
    let sound = AssertUnwindSafe(|| {
        engine.prepare();
        engine.render().is_some()
    });
    assert!(catch_unwind(sound).is_err());
}

#[test]
fn departure_7_host_nodes() {
    let named = |kind: &[u8]| Call::AddNode { kind: kind.to_vec(), ports: 0, required: 0, takes: 0, channels: 1 };
    let rows = [
        departs(host(65, 0), "refused 6", "node 0"),
        departs(named(&[b'k'; 17]), "refused 6", "node 1"),
        departs(named(b""), "refused 6", "node 2"),
        departs(host(64, 0), "node 0", "node 3"),
        departs(named(&[b'k'; 16]), "node 1", "node 4"),
    ];
    compare("07-host-nodes", rows);
}

/// A spawn needs room for three nodes more than its definition has.
#[test]
fn departure_7_nodes() {
    let mut rows: Vec<Row> = (0..509).map(|n| same(host(1, 0), &format!("node {n}"))).collect();
    rows.extend([same(tone(), "kept"), departs(SPAWN, "refused 7", "voice 1")]);
    rows.extend((509..512).map(|n| departs(host(1, 0), &format!("node {n}"), &format!("node {}", n + 1))));
    rows.extend([
        departs(host(1, 0), "refused 7", "node 513"),
        same(Call::RemoveNode { node: 508 }, "done"),
        departs(host(1, 0), "node 512", "node 514"),
    ]);
    assert_eq!(compare("07-nodes", rows).graph().live_nodes().len(), 514);
}

#[test]
fn departure_7_edges() {
    let mut rows: Vec<Row> = (0..17).map(|n| same(host(64, 0), &format!("node {n}"))).collect();
    rows.push(same(host(0, 0), "node 17"));
    let ports = (0..1024).map(|n| Call::Connect { from: 17, to: n / 64, port: n % 64 });
    rows.extend(ports.map(|connect| same(connect, "done")));
    rows.extend([
        departs(Call::Connect { from: 17, to: 16, port: 0 }, "refused 7", "done"),
        same(Call::Connect { from: 17, to: 0, port: 0 }, "done"),
        same(tone(), "kept"),
        departs(Call::Spawn { slot: 0, bus: 16, rank: 0 }, "refused 7", "voice 1"),
    ]);
    assert_eq!(compare("07-edges", rows).graph().all_edges().len(), 1026);
}

/// The policy would make room, but the table is full before it is asked.
#[test]
fn departure_7_voices() {
    let mut rows = vec![
        same(made(8000.0, 16, 64), "made"),
        same(host(64, 0), "node 0"),
        same(host(1, 0), "node 1"),
        same(tone(), "kept"),
    ];
    rows.extend((1..=64).map(|id| same(SPAWN, &format!("voice {id}"))));
    rows.extend([
        departs(Call::SpawnManaged { slot: 0, bus: 1, rank: 0 }, "refused 7", "voice 65"),
        departs(Call::Steals {}, "steals 0", "steals 1 0 - faded"),
    ]);
    assert_eq!(compare("07-voices", rows).voice_rows().count(), 65);
}

/// Definitions at a limit and past it.
fn definitions() -> Vec<(Definition, bool)> {
    let nodes = |count: usize| engines::rows(&vec![("Tone", 0); count], &[]);
    let ports = |ports: u8| engines::rows(&[("Tone", ports)], &[]);
    let edges = |count: usize| engines::rows(&[("Mul", 1), ("Tone", 0)], &vec![(1, 0, 0); count]);
    let kind = |length: usize| engines::rows(&[("k".repeat(length).as_str(), 0)], &[]);
    let params = |count: usize, length: usize| {
        let params = vec![ParamRow { name: vec![b'p'; length], node: 0 }; count];
        Definition { params, ..engines::rows(&[("Tone", 0)], &[]) }
    };
    let allowed = [nodes(24), ports(8), edges(48), kind(16), params(8, 16)];
    let refused = [nodes(25), ports(9), edges(49), kind(17), kind(0), params(9, 16), params(1, 17), params(1, 0)];
    let allowed = allowed.map(|definition| (definition, true)).into_iter();
    allowed.chain(refused.map(|definition| (definition, false))).collect()
}

#[test]
fn departure_7_definitions() {
    let mut rows = vec![same(host(64, 0), "node 0")];
    for (id, (definition, is_allowed)) in (1..).zip(definitions()) {
        let voice = format!("voice {id}");
        rows.push(same(Call::Keep { slot: 0, definition }, "kept"));
        rows.push(departs(SPAWN, if is_allowed { &voice } else { "refused 9" }, &voice));
    }
    rows.push(same(Call::Keep { slot: 0, definition: engines::rows(&[], &[]) }, "kept"));
    rows.push(departs(SPAWN, "refused 9", "panics"));
    compare("07-definitions", rows);
}

/// In a build without overflow checks the Rust's counters wrap.
#[test]
fn departure_7_voice_ids() {
    let rows = [
        same(host(2, 0), "node 0"),
        same(tone(), "kept"),
        same(Call::SetCounters { clock: 0, voices: u64::MAX - 1, noise: 0, node: 0 }, "set"),
        same(SPAWN, "voice 18446744073709551615"),
        departs(SPAWN, "refused 8", "voice 0"),
    ];
    compare("07-voice-ids", rows);
}

#[test]
fn departure_7_clock() {
    let rows = [
        same(Call::SetCounters { clock: u64::MAX - 127, voices: 0, noise: 0, node: 0 }, "set"),
        departs(RENDER, "silent took 0", "silent"),
        departs(RENDER, "refused 15", "silent"),
        departs(Call::Clock {}, "clock 18446744073709551552", "clock 0"),
    ];
    compare("07-clock", rows);
}

#[test]
fn departure_7_report() {
    let report =
        |channels, samples: usize| Call::Report { node: 0, channels, done: 0, samples: Samples(vec![0.0; samples]) };
    let rows = [
        same(host(0, 0), "node 0"),
        same(Call::SetSink { node: 0 }, "done"),
        same(PREPARE, "done"),
        departs(RENDER, "sounding took 0", "sounding"),
        alone(report(0, 0), "refused 16"),
        alone(report(1, 63), "refused 16"),
        alone(report(3, 192), "refused 16"),
        alone(report(1, 64), "done"),
    ];
    compare("07-report", rows);
}

/// The Rust's answer to a render has no list.
fn plain(line: &str) -> &str {
    line.split(" took").next().expect("a line")
}

#[test]
fn departure_7_page() {
    let page = "page 59\nvoice age port state\n1 48 0 fading\n2 32 1 held\n3 16 2 held";
    let scene = page_scene();
    let lines = transcript(&script(&scene));
    let mut rows: Vec<Row> = scene.into_iter().zip(lines.lines()).map(|(call, line)| departs(call, line, plain(line))).collect();
    rows.extend(
        [(58, "refused 17"), (59, page)].map(|(length, line)| alone(Call::Page { length: Length(length) }, line)),
    );
    compare("07-page", rows);
}

/// The line of steals, all of them at sample 0 and without a level.
fn steals(count: usize, cut: usize, faded: usize) -> String {
    let records = iter::repeat_n(" 0 - cut", cut).chain(iter::repeat_n(" 0 - faded", faded));
    format!("steals {count}{}", records.collect::<String>())
}

#[test]
fn departure_8_steals() {
    let mut rows = vec![same(made(8000.0, 16, 1), "made"), same(host(2, 0), "node 0"), same(tone(), "kept")];
    rows.extend((1..=66).map(|id| same(SPAWN, &format!("voice {id}"))));
    rows.push(departs(Call::Steals {}, &steals(65, 63, 1), &steals(65, 64, 1)));
    compare("08-steals", rows);
}

#[test]
fn departure_13_events() {
    let mut rows: Vec<Row> = (0..256).map(|time| same(free_at(time, 1), "done")).collect();
    rows.push(departs(free_at(256, 1), "refused 7", "done"));
    assert_eq!(compare("13-events", rows).scheduler().len(), 257);
}

/// A value in the place of a pending one: the queue of 256 stays as long as it is, and has no place left. There it grows.
#[test]
fn departure_22_replaced_event() {
    let mut rows: Vec<Row> = (0..255).map(|time| same(free_at(time, 1), "done")).collect();
    rows.extend([0.25, 0.5].map(|value| same(value_at(300, 1, value), "done")));
    rows.push(departs(free_at(256, 1), "refused 7", "done"));
    assert_eq!(compare("22-replaced-event", rows).scheduler().len(), 258);
}

/// Voice 1 fades on its own bus while 64 more are stolen on the other; then its port is reclaimed.
#[test]
fn departure_13_mark_of_an_old_record() {
    let mut rows = vec![
        same(made(8000.0, 16, 1), "made"),
        same(host(1, 0), "node 0"),
        same(host(2, 0), "node 1"),
        same(tone(), "kept"),
        same(SPAWN, "voice 1"),
    ];
    rows.extend((2..=66).map(|id| same(Call::SpawnManaged { slot: 0, bus: 1, rank: 0 }, &format!("voice {id}"))));
    let first_faded = steals(65, 0, 1) + &steals(0, 63, 1)["steals 0".len()..];
    rows.extend([
        departs(Call::Steals {}, &steals(65, 63, 1), &first_faded),
        same(SPAWN, "voice 67"),
        departs(Call::Steals {}, &steals(66, 62, 2), &steals(66, 64, 2)),
        same(Call::Voices {}, "voices 65 66 67"),
    ]);
    compare("13-mark-of-an-old-record", rows);
}
