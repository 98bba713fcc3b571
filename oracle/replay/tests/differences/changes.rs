//! Departure 20 and on: what the papers change, on the Rust with that change (`oracle/changes`) and as it was published.

use replay::script::{Call, Glide, Repeated};

use crate::entries::{PREPARE, RENDER, SPAWN, free_at, host, tone};
use crate::rows::{Row, alone, changed, compare, departs, same};

/// Under `Quietest`, so many voices on a bus of so many ports; each then has its level, the voices' nodes being 1 and on.
fn voices_with_levels(budget: u32, ports: u32, levels: &[f32]) -> Vec<Row> {
    let quietest = Call::Make { rate: 8000.0, block: 16, budgeted: 1, budget, policy: 3, scope: 0 };
    let mut rows = vec![
        same(quietest, "made"),
        same(host(ports, 0), "node 0"),
        same(Call::SetSink { node: 0 }, "done"),
        same(tone(), "kept"),
    ];
    rows.extend((1..=levels.len()).map(|voice| same(SPAWN, &format!("voice {voice}"))));
    rows.extend([same(PREPARE, "done"), departs(RENDER, "sounding took 0", "sounding")]);
    rows.extend((1..).zip(levels).map(|(node, &sample)| {
        let samples = Repeated { count: 32, sample };
        alone(Call::ReportRepeated { node, channels: 2, done: 0, samples }, "done")
    }));
    rows
}

/// Levels 2, 1, 1 at a budget of 3: here the third voice fades, there the second.
#[test]
fn departure_20_equal_levels() {
    let fades = [
        same(SPAWN, "voice 4"),
        changed(Call::Position { voice: 2 }, "position -", "position 0"),
        changed(Call::Position { voice: 3 }, "position 0", "position -"),
    ];
    compare("20-equal-levels", voices_with_levels(3, 4, &[2.0, 1.0, 1.0]).into_iter().chain(fades));
}

/// Below the budget a third spawn finds no port: of two equally quiet voices the second is freed here, the first there.
#[test]
fn departure_20_equal_levels_reclaimed() {
    let goes = [same(SPAWN, "voice 3"), changed(Call::Voices {}, "voices 1 3", "voices 2 3")];
    compare("20-equal-levels-reclaimed", voices_with_levels(9, 2, &[1.0, 1.0]).into_iter().chain(goes));
}

/// Two buses, a spawn on each: here each bus counts from 0, there both count together.
#[test]
fn departure_20a_noise_of_each_bus() {
    let rows = [
        same(host(1, 0), "node 0"),
        same(host(1, 0), "node 1"),
        same(tone(), "kept"),
        same(Call::Spawn { slot: 0, bus: 0, rank: 0 }, "voice 1"),
        same(Call::Spawn { slot: 0, bus: 1, rank: 0 }, "voice 2"),
        alone(Call::Voice { voice: 1 }, "voice 1 0 0 2 1 2 0 0 0 0 loose"),
        changed(Call::Voice { voice: 2 }, "voice 2 0 1 3 1 3 0 0 0 0 loose", "voice 2 0 1 3 1 3 0 0 1 0 loose"),
    ];
    compare("20a-noise-of-each-bus", rows);
}

/// Where the Rust says no, the store says which no it is; a render hands on what became of its events, at the moment when each happens.
#[test]
fn departure_24_outcomes() {
    let glide = Glide { target: 1.0, seconds: 0.0, shape: 1, curve: 0.0, space: 0 };
    let value = |voice, name: &[u8]| Call::Value { voice, name: name.to_vec(), value: 1.0 };
    // at other times: of two values for one time the later would replace the earlier
    let timed = |time| Call::Schedule { time, voice: 1, action: 0, name: b"freq".to_vec(), glide: glide.clone() };
    let lent = |length| Call::RenderLent { length, old: 7 };
    let rows = [
        same(host(1, 0), "node 0"),
        same(tone(), "kept"),
        same(Call::Spawn { slot: 0, bus: 0, rank: 0 }, "voice 1"),
        alone(value(1, b"freq"), "outcome 0"),
        alone(value(2, b"freq"), "outcome 1"),
        alone(value(1, b"none"), "outcome 2"),
        alone(Call::SetGlide { voice: 1, name: b"freq".to_vec(), glide: glide.clone() }, "outcome 3"),
        alone(timed(0), "done"),
        alone(free_at(1, 1), "done"),
        alone(timed(2), "done"),
        alone(lent(255), &format!("refused 17\nlist {}", "07".repeat(255))),
        alone(lent(258), &format!("silent took 3 000001\nlist 000001{}", "07".repeat(255))),
        departs(Call::Free { voice: 1 }, "outcome 1", "done"),
    ];
    compare("24-outcomes", rows);
}
