//! Vectors for the level: roots, narrowings, and levels of whole blocks.

use microsynth::engine::{Engine, EngineConfig};
use scripted::definition::{Definition, Made, Node};
use scripted::generator::{Generator, Handle, Kind, Log};
use scripted::words::hex32;
use seeded::floats;
use seeded::rng::Rng;

use crate::book::{Book, Vector, hex64};

const ROOT: u8 = 1;
const NARROW: u8 = 2;
const LEVEL: u8 = 3;

pub fn book(rng: &mut Rng, amount: usize) -> Book {
    let mut book = Book::default();
    let mut put = |sort, x: f64| match sort {
        ROOT => book.put("roots", 1, bits(ROOT, x, hex64(x.sqrt()))),
        _ => book.put("narrowings", 1, bits(NARROW, x, hex32(x as f32))),
    };
    for x in floats::EDGES_64.map(f64::from_bits) {
        put(ROOT, x);
        put(NARROW, x);
    }
    for _ in 0..10 * amount {
        put(ROOT, floats::to_root(rng));
        put(NARROW, floats::to_narrow(rng));
    }
    book.put("level blocks", 1, level(vec![1.0, 7.0], 1));
    for n in 0..amount {
        let (samples, channels) = block(rng, n);
        book.put("level blocks", 1, level(samples, channels));
    }
    book
}

fn bits(sort: u8, x: f64, answer: String) -> Vector {
    let mut vector = Vector::new(sort);
    vector.u64(x.to_bits());
    vector.line(answer);
    vector
}

/// A block and its channels. Blocks are short, as long as the store's, or, once in a while, of more channels than it has.
fn block(rng: &mut Rng, n: usize) -> (Vec<f32>, usize) {
    let (channels, size) = match n % 40 {
        0 => (rng.within(3, 8), rng.within(1, 128)),
        1 => (2, 128),
        2..10 => (rng.within(1, 2), rng.within(1, 128)),
        _ => (rng.within(1, 2), rng.within(1, 12)),
    };
    (floats::block(rng, channels * size), channels)
}

fn level(samples: Vec<f32>, channels: usize) -> Vector {
    let mut vector = Vector::new(LEVEL);
    vector.samples(&samples);
    vector.line(hex32(voice_level(samples, channels)));
    vector
}

/// The level of a voice whose one node has just written these samples.
fn voice_level(samples: Vec<f32>, channels: usize) -> f32 {
    let mut engine = Engine::new(EngineConfig { sample_rate: 8000.0, block_size: samples.len() / channels });
    let log = Log::default();
    let bus = Generator::new(&Kind::plain("Bus", 1), Handle::default(), log.clone());
    let bus = engine.graph_mut().add_node(Box::new(bus));
    engine.graph_mut().set_sink(bus);

    let made = Made::default();
    let tone = Node { channels, ..Node::new(b"Tone", vec![]) };
    let def = Definition { nodes: vec![tone], ..Definition::default() };
    let voice = engine.spawn_voice_on_bus(&def.build(&made, &log), bus).expect("the bus has a port");
    made.lock().expect("no holder of the list panics")[0].state().samples = samples;
    engine.prepare();
    engine.render().expect("the graph is prepared and has a sink");
    engine.voice_level(voice).expect("the voice has sounded")
}
