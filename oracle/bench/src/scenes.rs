//! Stores to make calls on, at 48 kHz with blocks of 128 samples. Node 0 is the sink, and the bus of the voices. A call that
//! builds a scene must be done.

use crate::book::{OF_6, OF_7, OF_8, OF_24};
use crate::c;
use crate::store::{Store, make};
use crate::time::{lap, median, timed};

pub const OLDEST: u32 = 1;
pub const QUIETEST: u32 = 3;

/// What an event does to its voice.
#[derive(Clone, Copy)]
pub enum Kind {
    Value,
    Glide,
    Free,
}

/// `sum` with one more: three times the sum, and `n`, modulo 2^32.
pub fn add(sum: u32, n: u32) -> u32 {
    sum.wrapping_mul(3).wrapping_add(n)
}

pub fn done(answer: u32) {
    assert_eq!(answer, 0, "a call that builds a scene is refused");
}

/// A new store, in memory that is not empty.
fn new(budget: usize, policy: u32, table: u32) -> Box<Store> {
    const ANY: u32 = 0xeeee_eeee;
    let mut s = Box::new(Store {
        state: [ANY; 32],
        nodes: [ANY; 11264],
        edges: [ANY; 3072],
        order: [ANY; 512],
        voices: [ANY; 9152],
        events: [ANY; 3840],
        steals: [ANY; 320],
    });
    done(make(&mut s.state, budget, policy, table));
    s
}

/// A store for fades and sums; with the fade table where `table` is not 0.
pub fn mixer(table: u32) -> Box<Store> {
    new(64, OLDEST, table)
}

/// A store with node 0.
pub fn bus(budget: usize, policy: u32, ports: u32) -> Box<Store> {
    let mut s = new(budget, policy, 0);
    done(s.add_node(ports));
    done(s.set_sink(0));
    s
}

pub fn more_nodes(s: &mut Store, n: u32, ports: u32) {
    for _ in 0..n {
        done(s.add_node(ports));
    }
}

/// `n` edges from node 1: 64 of them to node 2, 64 to node 3, and so on.
pub fn more_edges(s: &mut Store, n: u32) {
    for i in 0..n {
        done(s.connect(1, 2 + i / 64, i % 64));
    }
}

/// Node 1 takes the ports of node 0 from `first` to `end`.
fn take_ports(s: &mut Store, first: u32, end: u32) {
    for port in first..end {
        done(s.connect(1, 0, port));
    }
}

fn more_voices(s: &mut Store, book: &[u8], n: u32) {
    for id in 1..=n {
        assert_eq!(s.spawn(book), id, "a voice of the scene is refused");
    }
}

fn sounded(s: &mut Store) {
    done(s.prepare());
    assert_eq!(s.render(), 1, "the scene sounds");
}

/// The nodes below `end` report a block, and that they are done. A node that a fade added reports nothing: its report is refused.
fn all_done(s: &mut Store, end: u32) {
    for node in 0..end {
        s.report(node, &[0.25; 128]);
    }
}

/// 61 host nodes, `voices` voices of 7 nodes and as many edges as leave room for one voice more. It has sounded.
fn held(voices: u32, policy: u32) -> Box<Store> {
    let mut s = bus(voices as usize, policy, 64);
    more_nodes(&mut s, 60, 64);
    more_edges(&mut s, 560);
    more_voices(&mut s, &OF_7, voices);
    sounded(&mut s);
    s
}

/// 63 voices at a budget of 63, each with a level, on a bus of 64 ports, of which node 1 has those from `taken` on.
pub fn full_budget(policy: u32, taken: u32) -> Box<Store> {
    let mut s = held(63, policy);
    all_done(&mut s, 502);
    take_ports(&mut s, taken, 64);
    s
}

/// 64 voices, none of them done.
pub fn full_voices() -> Box<Store> {
    held(64, OLDEST)
}

/// 64 voices, each of them silent.
pub fn all_silent() -> Box<Store> {
    let mut s = full_voices();
    all_done(&mut s, 509);
    s
}

/// 64 voices, of which 63 have faded; the last one is silent.
pub fn all_faded() -> Box<Store> {
    let mut s = bus(1, OLDEST, 64);
    more_nodes(&mut s, 50, 64);
    more_edges(&mut s, 500);
    more_voices(&mut s, &OF_6, 64);
    sounded(&mut s);
    sounded(&mut s);
    all_done(&mut s, 498);
    s
}

/// 19 voices at a budget of 19 of a definition of 24 nodes and 48 edges.
pub fn full_budget_of_largest() -> Box<Store> {
    let mut s = bus(19, QUIETEST, 64);
    more_nodes(&mut s, 28, 64);
    more_edges(&mut s, 41);
    more_voices(&mut s, &OF_24, 19);
    sounded(&mut s);
    all_done(&mut s, 485);
    s
}

/// Full voices, and 256 events that are due: for the voices 1 to 64 by turns, each time at the next sample, so that none replaces
/// another; or, if they are frees, for the voices 1 to 256.
pub fn full_events(kind: Kind) -> Box<Store> {
    let mut s = full_voices();
    for i in 0..256 {
        let voice = match kind {
            Kind::Free => i + 1,
            _ => i % 64 + 1,
        };
        done(s.schedule(i / 64, voice, kind));
    }
    s
}

/// Full voices, and 255 events.
pub fn room_for_an_event() -> Box<Store> {
    let mut s = full_voices();
    for i in 0..255 {
        done(s.schedule(1 + i / 64, i % 64 + 1, Kind::Value));
    }
    s
}

/// One host node less than the table holds.
pub fn room_for_a_node() -> Box<Store> {
    let mut s = bus(64, OLDEST, 64);
    more_nodes(&mut s, 510, 64);
    s
}

/// The edge `i` of 1,024 among 512 nodes: first each node to the next, then each to the next but one, then the first three
/// to the next but two.
fn put_edge(s: &mut Store, i: u32) {
    let (from, step) = match i {
        0..511 => (i, 1),
        511..1021 => (i - 511, 2),
        _ => (i - 1021, 3),
    };
    done(s.connect(from, from + step, step - 1));
}

/// 512 nodes of 8 ports and 1,024 edges.
pub fn braid() -> Box<Store> {
    let mut s = bus(64, OLDEST, 8);
    more_nodes(&mut s, 511, 8);
    for i in 0..1024 {
        put_edge(&mut s, i);
    }
    s
}

/// The answers, and the processing order that is left.
fn with_order(sum: u32, s: &Store) -> u32 {
    add(sum, s.ordered().iter().fold(0, |sum, id| add(sum, *id)))
}

/// An edge is put anew, untimed, and then a prepare is timed.
pub fn prepares(rounds: u32) -> (u32, f64) {
    let mut s = braid();
    let (mut sum, mut times) = (0, Vec::new());
    for i in 0..rounds {
        put_edge(&mut s, i % 1024);
        let (answer, time) = lap(|| s.prepare());
        times.push(time);
        sum = add(sum, answer);
    }
    (with_order(sum, &s), median(times))
}

/// Notes of an 8-node definition at budget 32 on a bus of 64 ports: each a managed spawn, a prepare, a render and a clearing.
pub fn notes(rounds: u32) -> (u32, f64) {
    let mut s = bus(32, OLDEST, 64);
    more_voices(&mut s, &OF_8, 32);
    let (sum, time) = timed(rounds, || {
        (0..rounds).fold(0, |sum, _| {
            let id = s.spawn(&OF_8);
            done(s.prepare());
            let sounding = s.render();
            let removed = s.clear();
            add(add(add(sum, id), sounding), removed)
        })
    });
    (with_order(sum, &s), time)
}

/// The port search of a spawn among 1,024 edges, the last ones at the `ports` ports of the bus.
pub fn ports(ports: u32, rounds: u32) -> (u32, f64) {
    let mut s = bus(64, OLDEST, ports);
    more_nodes(&mut s, 60, 64);
    more_edges(&mut s, 1024 - ports);
    take_ports(&mut s, 0, ports);
    let count = s.edge_count() as usize;
    timed(rounds, || (0..rounds).fold(0, |sum, _| add(sum, c::piecrag_free_port(&s.edges, count, 0, ports))))
}
