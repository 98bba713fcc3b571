//! The arguments of calls: names, floats, pans, glides, configurations and definitions.

use replay::script::{Call, Definition, EdgeRow, Glide, Name, NodeRow, ParamRow};
use scripted::definition;
use seeded::definitions;
use seeded::floats::{PROFILES, Profile};
use seeded::rng::Rng;

/// The names of parameters that the random definitions have, and names that are nearly one of them.
const PARAMS: [&str; 10] =
    ["gate", "gate", "freq", "freq", "amp", "a", "sixteen letters!", "Freq", "fre", "seventeen letters"];

/// A name that is no text.
const NOT_TEXT: [u8; 3] = [0, 0xff, 0x80];

pub fn param(rng: &mut Rng) -> Name {
    match rng.below(24) {
        0 => vec![],
        1 => vec![b'a'; *rng.pick(&[15, 16, 17, 255])],
        2 => NOT_TEXT.to_vec(),
        _ => rng.pick(&PARAMS).as_bytes().to_vec(),
    }
}

pub fn float(rng: &mut Rng) -> f32 {
    rng.pick(&PROFILES).sample(rng)
}

/// A pan: often one that leaves the pan node out.
pub fn pan(rng: &mut Rng) -> f32 {
    match rng.below(8) {
        0 => -0.0,
        1 => f32::NAN,
        2 | 3 => 0.0,
        4 => *rng.pick(&[f32::INFINITY, -1.0, 1.0, f32::from_bits(1), f32::from_bits(0xffff_ffff)]),
        _ => Profile::Audio.sample(rng),
    }
}

pub fn glide(rng: &mut Rng) -> Glide {
    Glide {
        target: float(rng),
        seconds: *rng.pick(&[0.0, -1.0, 0.5, f32::NAN, 2.0]),
        shape: *rng.pick(&[0, 1, 2, 3, 3, 255]),
        curve: float(rng),
        space: *rng.pick(&[0, 1, 1, 200]),
    }
}

/// A yes: any byte but 0.
pub fn yes(rng: &mut Rng) -> u8 {
    *rng.pick(&[1, 1, 1, 2, 255])
}

/// What a store is made with.
#[derive(Clone, Copy)]
pub struct Config {
    pub rate: f32,
    pub block: u32,
    pub budget: Option<u32>,
    /// 0 reject, 1 oldest, 2 newest, 3 quietest.
    pub policy: u8,
    pub per_group: bool,
    pub has_table: bool,
}

impl Config {
    pub fn random(rng: &mut Rng) -> Config {
        let has_table = rng.once_in(8);
        Config {
            rate: if has_table { 48_000.0 } else { rate(rng) },
            block: block(rng),
            budget: budget(rng),
            policy: rng.below(4) as u8,
            per_group: rng.flag(),
            has_table,
        }
    }

    pub fn call(self, rng: &mut Rng) -> Call {
        let Config { rate, block, .. } = self;
        let budgeted = if self.budget.is_some() { yes(rng) } else { 0 };
        let budget = self.budget.unwrap_or(7);
        let policy = if self.policy == 3 { *rng.pick(&[3, 3, 4, 255]) } else { self.policy };
        let scope = if self.per_group { yes(rng) } else { 0 };
        if self.has_table {
            Call::MakeWithTable { rate, block, budgeted, budget, policy, scope }
        } else {
            Call::Make { rate, block, budgeted, budget, policy, scope }
        }
    }

    /// The same with keyboards.
    pub fn console(self, rng: &mut Rng, keyboards: u32) -> Call {
        let table = if self.has_table { yes(rng) } else { 0 };
        match self.call(rng) {
            Call::Make { rate, block, budgeted, budget, policy, scope }
            | Call::MakeWithTable { rate, block, budgeted, budget, policy, scope } => {
                Call::MakeConsole { rate, block, budgeted, budget, policy, scope, table, keyboards }
            }
            other => other,
        }
    }
}

/// A sample rate: often one whose fade is a few blocks long, or whose length is half way between two numbers.
fn rate(rng: &mut Rng) -> f32 {
    match rng.below(6) {
        0 => *rng.pick(&[1.0, 99.0, 100.0, 101.0, 300.0, 500.0, 700.0]),
        1 => *rng.pick(&[22050.0, 44100.0, 48000.0, 384_000.0]),
        2 => (200 * rng.below(20) + 100) as f32,
        3 => rng.within(1, 384_000) as f32,
        _ => *rng.pick(&[4000.0, 8000.0, 8000.0, 11025.0]),
    }
}

/// A block size: most are small, so that scripts are.
fn block(rng: &mut Rng) -> u32 {
    match rng.below(10) {
        0 => *rng.pick(&[127, 128]),
        1 => rng.within(1, 128) as u32,
        2 | 3 => 1,
        _ => *rng.pick(&[2, 4, 8, 16]),
    }
}

fn budget(rng: &mut Rng) -> Option<u32> {
    match rng.below(10) {
        0 => None,
        1 => Some(0),
        2 | 3 => Some(1),
        4 | 5 => Some(2),
        6 | 7 => Some(rng.within(3, 8) as u32),
        8 => Some(rng.within(9, 63) as u32),
        _ => Some(64),
    }
}

/// A definition within the limits, whose required ports are fed but once in a while.
pub fn definition(rng: &mut Rng, n: usize) -> Definition {
    let mut def = definitions::definition(rng, n);
    if !rng.once_in(12) {
        for (at, node) in def.nodes.iter_mut().enumerate() {
            node.required &= def.edges.iter().filter(|e| e.to == at).fold(0, |fed, e| fed | 1 << e.port);
        }
    }
    rows(rng, &def)
}

/// A definition at a limit or past it, or with a node of a kind that has a rule.
pub fn edge_definition(rng: &mut Rng) -> Definition {
    let def = match rng.below(3) {
        0 => {
            let n = rng.below(32);
            let mut def = definitions::definition(rng, n);
            definitions::spoil(rng, &mut def);
            def
        }
        1 => rng.pick(&definitions::at_the_limits()).clone(),
        _ => rng.pick(&definitions::each_kind()).clone(),
    };
    rows(rng, &def)
}

/// A definition whose output has a rule, with two nodes above it.
pub fn two_sources(rng: &mut Rng) -> Definition {
    let def = definitions::two_sources(rng);
    rows(rng, &def)
}

/// A definition of one node without ports that takes orders.
pub fn tone() -> Definition {
    let node = NodeRow {
        kind: b"Tone".to_vec(),
        ports: 0,
        required: 0,
        takes: 3,
        channels: 1,
        input: 255,
        level: 255,
        amp: 255,
    };
    let params = ["gate", "freq"].map(|name| ParamRow { name: name.into(), node: 0 });
    Definition { nodes: vec![node], edges: vec![], params: params.into(), output: 0 }
}

/// A definition with all the nodes and all the edges that one may have, each edge to a port of its own.
pub fn largest() -> Definition {
    sized(24, 48)
}

/// A definition of so many nodes and edges. Each edge has a port of its own as long as there are enough: eight of each node behind the
/// first.
pub fn sized(nodes: usize, edges: usize) -> Definition {
    let mut def = tone();
    let node = NodeRow { ports: 8, ..def.nodes[0].clone() };
    def.nodes = vec![node; nodes];
    let places = 8 * nodes.saturating_sub(1).max(1);
    let edge = |n: usize| EdgeRow { from: (n % places / 8) as u8, to: (n % places / 8 + 1) as u8, port: (n % 8) as u8 };
    def.edges = (0..edges).map(edge).collect();
    def
}

/// The same with so many edges more, which are given to a port that has one: they do not count.
pub fn doubled(nodes: usize, edges: usize, more: usize) -> Definition {
    let mut def = sized(nodes, edges);
    let first = def.edges.first().cloned();
    def.edges.extend(first.into_iter().cycle().take(more));
    def
}

/// The rows of a definition as the script has them. Each node has one channel or two.
fn rows(rng: &mut Rng, def: &definition::Definition) -> Definition {
    let byte = |n: usize| u8::try_from(n).expect("a number of one byte");
    let mut node = |node: &definition::Node| {
        let [input, level, amp] = node.named.map(|port| port.map_or(255, byte));
        NodeRow {
            kind: node.kind.clone(),
            ports: byte(node.ports.len()),
            required: node.required as u8,
            takes: u8::from(node.takes_values) + 2 * u8::from(node.takes_glides),
            channels: 1 + u8::from(rng.once_in(3)),
            input,
            level,
            amp,
        }
    };
    let edge = |e: &definition::Edge| EdgeRow { from: byte(e.from), to: byte(e.to), port: byte(e.port) };
    let name = |name: &Name| if name == b"a" { NOT_TEXT.to_vec() } else { name.clone() };
    let param = |p: &definition::Param| ParamRow { name: name(&p.name), node: byte(p.node) };
    Definition {
        nodes: def.nodes.iter().map(&mut node).collect(),
        edges: def.edges.iter().map(edge).collect(),
        params: def.params.iter().map(param).collect(),
        output: byte(def.output),
    }
}
