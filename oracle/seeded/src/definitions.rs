//! Random definitions, most of them within the limits, and those at each limit and past it.

use microsynth::synthdef::silence_pass_through;
use scripted::definition::{Definition, Edge, LOOKED_UP, Node, Param};
use scripted::limits;

use crate::rng::Rng;

/// A chain of so many nodes of eight ports, each fed by the one before it at port 0; the last is the output.
fn chain(count: usize) -> Definition {
    let ports = vec!["in".to_string(); limits::DEF_PORTS];
    let edge = |n: usize| Edge { from: n - 1, to: n, port: 0 };
    Definition {
        nodes: vec![Node::new(b"Neg", ports); count],
        edges: (1..count).map(edge).collect(),
        params: vec![],
        output: count.saturating_sub(1),
    }
}

/// Definitions at each limit and just past it.
pub fn at_the_limits() -> Vec<Definition> {
    let mut defs: Vec<Definition> = [0, 1, 24, 25].map(chain).into();
    let mut put = |change: &dyn Fn(&mut Definition)| {
        let mut def = chain(3);
        change(&mut def);
        defs.push(def);
    };
    for length in [0, 1, 16, 17] {
        put(&|def| def.nodes[1].kind = vec![b'N'; length]);
        put(&|def| def.params.push(Param { name: vec![b'N'; length], node: 0 }));
    }
    for count in [8, 9] {
        put(&|def| def.params = vec![Param { name: b"a".to_vec(), node: 0 }; count]);
        put(&|def| def.nodes[1].ports = vec!["in".to_string(); count]);
    }
    for count in [48, 49] {
        put(&|def| def.edges = vec![Edge { from: 0, to: 1, port: 7 }; count]);
    }
    for node in [2, 3, 255] {
        put(&|def| def.output = node);
        put(&|def| def.params.push(Param { name: b"a".to_vec(), node }));
        put(&|def| def.edges.push(Edge { from: 0, to: node, port: 1 }));
        put(&|def| def.edges.push(Edge { from: node, to: 0, port: 1 }));
    }
    for port in [6, 7] {
        put(&|def| def.edges.push(Edge { from: 0, to: 1, port: port + 1 }));
        put(&|def| {
            def.nodes[1].ports.truncate(7);
            def.nodes[1].required = 1 << port;
        });
        for (which, name) in LOOKED_UP.iter().enumerate() {
            put(&|def| {
                let node = &mut def.nodes[1];
                node.ports = vec!["a".to_string(); 7];
                node.ports[6] = name.to_string();
                node.named = [None; 3];
                node.named[which] = Some(port);
            });
        }
    }
    // A cycle of one node, one of two, and one that a later edge undoes.
    put(&|def| def.edges.push(Edge { from: 1, to: 1, port: 1 }));
    put(&|def| def.edges.push(Edge { from: 1, to: 0, port: 1 }));
    put(&|def| def.edges.insert(0, Edge { from: 2, to: 1, port: 0 }));
    defs
}

/// A node of each kind that has a rule, fed at one of its ports, at all of them, or at none, by a node without one.
pub fn each_kind() -> Vec<Definition> {
    let ports = ["a", "in", "level", "amp", "in"].map(str::to_string);
    let mut defs = Vec::new();
    for kind in RULED.iter().chain(silence_pass_through()).chain(&["Tone"]) {
        let def = |ports: &[String], fed: std::ops::Range<usize>| Definition {
            nodes: vec![Node::new(b"Tone", vec![]), Node::new(kind.as_bytes(), ports.to_vec())],
            edges: fed.map(|port| Edge { from: 0, to: 1, port }).collect(),
            params: vec![],
            output: 1,
        };
        defs.extend((0..ports.len()).map(|port| def(&ports, port..port + 1)));
        defs.extend([def(&ports, 0..ports.len()), def(&ports, 0..0), def(&[], 0..0)]);
    }
    defs
}

/// Names with a rule of their own, twice as likely as the rest together.
const RULED: [&str; 7] = ["Mul", "Div", "Add", "Sub", "FmOp", "Paf", "Neg"];

/// A kind: one with a rule, one that passes silence through, one that is nearly one of these, or a plain one.
fn kind(rng: &mut Rng) -> Vec<u8> {
    let ruled = if rng.below(3) < 2 { *rng.pick(&RULED) } else { *rng.pick(silence_pass_through()) };
    let mut name = ruled.as_bytes().to_vec();
    match rng.below(12) {
        0 => name.truncate(name.len() - 1),
        1 => name.push(*rng.pick(b"2 \0n")),
        2 => {
            let place = rng.below(name.len());
            name[place] ^= 0x20;
        }
        3 => name = rng.pick(&["Tone", "SinOsc", "Const", "StealFade", "CombFilter"]).as_bytes().to_vec(),
        _ => {}
    }
    name
}

/// An output of a kind that has a rule, or nearly has one, with two nodes above it: each of its ports is fed by the
/// first, by the second, or not at all. Where the first alone is done, the rule decides.
pub fn two_sources(rng: &mut Rng) -> Definition {
    let kinds: Vec<&str> = RULED.iter().chain(silence_pass_through()).copied().collect();
    let name = if rng.once_in(8) { kind(rng) } else { rng.pick(&kinds).as_bytes().to_vec() };
    let mut ports = ["a", "in", "level", "amp", "in"].map(str::to_string).to_vec();
    rng.shuffle(&mut ports);
    ports.truncate(rng.within(1, 5));
    let source = |port| rng.pick(&[Some(0), Some(1), None]).map(|from| Edge { from, to: 2, port });
    let edges = (0..ports.len()).filter_map(source).collect();
    let tone = Node::new(b"Tone", vec![]);
    Definition { nodes: vec![tone.clone(), tone, Node::new(&name, ports)], edges, params: vec![], output: 2 }
}

fn node(rng: &mut Rng) -> Node {
    let names = ["in", "level", "amp", "freq", "In", "i", "inn", "a"];
    let count = if rng.once_in(8) { rng.within(0, limits::DEF_PORTS) } else { rng.within(1, 3) };
    let ports: Vec<String> = (0..count)
        .map(|_| if rng.flag() { rng.pick(&LOOKED_UP) } else { rng.pick(&names) })
        .map(|name| name.to_string())
        .collect();
    let mut node = Node::new(&kind(rng), ports);
    node.required = rng.word() & rng.word() & ((1 << count) - 1);
    node.takes_values = rng.flag();
    node.takes_glides = rng.flag();
    node
}

/// A definition, most often within the limits. The edges run along a random order of the nodes, so that few make a
/// cycle; a port is often given twice.
pub fn definition(rng: &mut Rng, n: usize) -> Definition {
    let count = match n % 16 {
        0 => limits::DEF_NODES,
        1 => 1,
        _ => rng.within(2, 10),
    };
    let nodes: Vec<Node> = (0..count).map(|_| node(rng)).collect();
    let mut order: Vec<usize> = (0..count).collect();
    rng.shuffle(&mut order);
    let wanted = match n % 16 {
        0 => limits::DEF_EDGES,
        _ => rng.within(0, 2 * count),
    };
    let mut edges = Vec::new();
    for _ in 0..4 * wanted {
        let (mut early, mut late) = (rng.below(count), rng.below(count));
        if early > late && !rng.once_in(60) {
            std::mem::swap(&mut early, &mut late);
        }
        let (from, to) = (order[early], order[late]);
        let ports = nodes[to].ports.len();
        if edges.len() < wanted && ports > 0 && (early != late || rng.once_in(100)) {
            let port = rng.below(ports);
            edges.push(Edge { from, to, port });
        }
    }
    let params = (0..rng.within(0, limits::DEF_PARAMS)).map(|_| Param {
        name: rng.pick(&["gate", "freq", "freqs", "Freq", "amp", "a", "sixteen letters!"]).as_bytes().to_vec(),
        node: rng.below(count),
    });
    Definition {
        params: params.collect(),
        // The last of the order has the most above it.
        output: if rng.once_in(4) { rng.below(count) } else { order[count - 1] },
        nodes,
        edges,
    }
}

/// Brings a definition to a limit or past it.
pub fn spoil(rng: &mut Rng, def: &mut Definition) {
    let count = def.nodes.len();
    let place = rng.below(count);
    let beyond = rng.pick(&[0, 1, 100]) + count;
    let long = vec![b'N'; *rng.pick(&[0, 16, 17, 255])];
    match rng.below(14) {
        0 => def.nodes.clear(),
        1 => def.nodes.resize(rng.within(24, 26), node(rng)),
        2 => def.nodes[place].kind = long,
        3 => def.nodes[place].ports.resize(rng.within(8, 9), "a".to_string()),
        4 => def.nodes[place].required |= 1 << rng.below(8),
        5 => def.nodes[place].named[rng.below(3)] = Some(def.nodes[place].ports.len() + rng.below(3)),
        6 => {
            let again = def.edges.first().copied().into_iter().cycle();
            def.edges.extend(again.take(rng.within(47, 49).saturating_sub(def.edges.len())));
        }
        7 => def.edges.push(Edge { from: beyond, to: place, port: 0 }),
        8 => def.edges.push(Edge { from: place, to: beyond, port: 0 }),
        9 => def.edges.push(Edge { from: place, to: rng.below(count), port: rng.below(10) }),
        10 => def.params.resize(rng.within(8, 9), Param { name: b"a".to_vec(), node: place }),
        11 => def.params.push(Param { name: b"a".to_vec(), node: beyond }),
        12 => def.params.push(Param { name: long, node: place }),
        _ => def.output = beyond,
    }
}
