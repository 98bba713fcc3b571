//! Vectors for definitions: limits, counted edges, parameters, and the done plan.

use microsynth::engine::{Engine, EngineConfig};
use scripted::definition::{Definition, Made};
use scripted::generator::Log;
use scripted::words::or_dash;
use seeded::definitions::{at_the_limits, definition, each_kind, spoil};
use seeded::rng::Rng;

use crate::book::{Book, Vector};

const DEFINITION: u8 = 51;

pub fn book(rng: &mut Rng, amount: usize) -> Book {
    let mut book = Book::default();
    for def in at_the_limits().iter().chain(&each_kind()) {
        book.put("definitions", 1, asked(rng, def, &[0, 1]));
    }
    for n in 0..amount {
        let mut def = definition(rng, n);
        if n % 5 == 0 {
            spoil(rng, &mut def);
        }
        let flags: Vec<u32> = (0..rng.within(1, 4)).map(|_| rng.word() & rng.word() & 0xff_ffff).collect();
        book.put("definitions", 1, asked(rng, &def, &flags));
    }
    book
}

/// One byte for a number or none.
fn byte(number: Option<usize>) -> u8 {
    number.map_or(255, |n| n.try_into().expect("a number of one byte"))
}

fn put(vector: &mut Vector, def: &Definition) {
    vector.u8(byte(Some(def.nodes.len())));
    for node in &def.nodes {
        vector.name(&node.kind);
        vector.u8(byte(Some(node.ports.len())));
        vector.u8(node.required as u8);
        vector.u8(u8::from(node.takes_values) + 2 * u8::from(node.takes_glides));
        vector.u8(byte(Some(node.channels)));
        for port in node.named {
            vector.u8(byte(port));
        }
    }
    vector.u8(byte(Some(def.edges.len())));
    for edge in &def.edges {
        for number in [edge.from, edge.to, edge.port] {
            vector.u8(byte(Some(number)));
        }
    }
    vector.u8(byte(Some(def.params.len())));
    for param in &def.params {
        vector.name(&param.name);
        vector.u8(byte(Some(param.node)));
    }
    vector.u8(byte(Some(def.output)));
}

/// A definition, the done flags that its nodes are given, and two names of parameters.
fn asked(rng: &mut Rng, def: &Definition, flags: &[u32]) -> Vector {
    let mut vector = Vector::new(DEFINITION);
    put(&mut vector, def);
    let names = ["gate", "freq", "fre", "FREQ", "a", "", "sixteen letters!", "seventeen letters"];
    let names = [*rng.pick(&names), *rng.pick(&names)];
    vector.u8(byte(Some(flags.len())));
    for &done in flags {
        vector.u32(done as usize);
    }
    for name in names {
        vector.name(name.as_bytes());
    }
    match def.instance() {
        Err(number) => vector.line(format_args!("refused {number}")),
        Ok((engine, synth)) => {
            let edges = engine.graph().all_edges();
            let counted = edges.iter().flat_map(|e| [e.from.index(), e.to.index(), e.to_input]);
            vector.row("counted", counted);
            let silent = |done: &u32| if is_silent(def, *done) { "yes" } else { "no" };
            vector.row("silent", flags.iter().map(silent));
            vector.row("params", names.map(|name| or_dash(synth.param_node(name).map(|id| id.index()))));
        }
    }
    vector
}

/// Whether clearing removes an instance whose generators have these done flags.
fn is_silent(def: &Definition, done: u32) -> bool {
    let made = Made::default();
    let mut engine = Engine::new(EngineConfig::default());
    engine.instantiate_synthdef(&def.build(&made, &Log::default()));
    for (n, handle) in made.lock().expect("no holder of the list panics").iter().enumerate() {
        handle.state().done = done >> n & 1 == 1;
    }
    engine.free_done_synths() == 1
}
