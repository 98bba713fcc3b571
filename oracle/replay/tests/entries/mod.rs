//! Entries that the tests write, and how they are played.

use replay::player;
use replay::script::{Call, Definition, Glide, NodeRow, ParamRow};

pub fn script(calls: &[Call]) -> Vec<u8> {
    let mut bytes = Vec::new();
    calls.iter().for_each(|call| call.encode(&mut bytes));
    bytes
}

pub fn transcript(script: &[u8]) -> String {
    player::transcript(script).collect()
}

pub fn made(rate: f32, block: u32, budget: u32) -> Call {
    Call::Make { rate, block, budgeted: 1, budget, policy: 1, scope: 0 }
}

pub fn host(ports: u32, required: u64) -> Call {
    Call::AddNode { kind: b"Bus".to_vec(), ports, required, takes: 0, channels: 1 }
}

/// One node of two channels that takes values for its parameter `freq`.
pub fn tone() -> Call {
    let node = NodeRow {
        kind: b"Tone".to_vec(),
        ports: 0,
        required: 0,
        takes: 1,
        channels: 2,
        input: 255,
        level: 255,
        amp: 255,
    };
    let params = vec![ParamRow { name: b"freq".to_vec(), node: 0 }];
    Call::Keep { slot: 0, definition: Definition { nodes: vec![node], edges: vec![], params, output: 0 } }
}

pub const SPAWN: Call = Call::SpawnManaged { slot: 0, bus: 0, rank: 0 };
pub const PREPARE: Call = Call::Prepare {};
pub const RENDER: Call = Call::Render {};

pub fn free_at(time: u64, voice: u64) -> Call {
    let glide = Glide { target: 0.0, seconds: 0.0, shape: 0, curve: 0.0, space: 0 };
    Call::Schedule { time, voice, action: 3, name: vec![], glide }
}

/// A value for the parameter `freq`.
pub fn value_at(time: u64, voice: u64, value: f32) -> Call {
    let glide = Glide { target: value, seconds: 0.0, shape: 0, curve: 0.0, space: 0 };
    Call::Schedule { time, voice, action: 0, name: b"freq".to_vec(), glide }
}

/// The scene of the program `voices`.
pub fn page_scene() -> Vec<Call> {
    let mut calls = vec![made(8000.0, 16, 2), host(3, 0), Call::SetSink { node: 0 }, tone()];
    for _ in 0..3 {
        calls.extend([SPAWN, PREPARE, RENDER]);
    }
    calls
}
