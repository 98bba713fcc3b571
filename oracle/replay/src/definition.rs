//! A definition of the script as the host gives it.

use scripted::definition::{Definition, Edge, LOOKED_UP, Node, Param};

use crate::script::{self, EdgeRow, NodeRow, ParamRow};

impl From<&script::Definition> for Definition {
    fn from(rows: &script::Definition) -> Definition {
        Definition {
            nodes: rows.nodes.iter().map(node).collect(),
            edges: rows.edges.iter().map(edge).collect(),
            params: rows.params.iter().map(param).collect(),
            output: rows.output.into(),
        }
    }
}

fn node(row: &NodeRow) -> Node {
    let named = [row.input, row.level, row.amp].map(|port| (port != 255).then_some(usize::from(port)));
    Node {
        kind: row.kind.clone(),
        ports: port_names(row, named),
        required: row.required.into(),
        takes_values: takes_values(row.takes),
        takes_glides: takes_glides(row.takes),
        channels: channels(row.channels),
        named,
    }
}

/// The names of the ports. The host may give one port as the first of two names, where a port of the Rust has one: there
/// it has the name that the silence rule of its kind asks for.
fn port_names(row: &NodeRow, named: [Option<usize>; 3]) -> Vec<String> {
    let asked = match &row.kind[..] {
        b"FmOp" => 1,
        b"Paf" => 2,
        _ => 0,
    };
    let mut names = vec![String::new(); row.ports.into()];
    for which in (0..3).filter(|&which| which != asked).chain([asked]) {
        if let Some(name) = named[which].and_then(|port| names.get_mut(port)) {
            *name = LOOKED_UP[which].to_string();
        }
    }
    names
}

fn edge(row: &EdgeRow) -> Edge {
    Edge { from: row.from.into(), to: row.to.into(), port: row.port.into() }
}

fn param(row: &ParamRow) -> Param {
    Param { name: row.name.clone(), node: row.node.into() }
}

/// What a node takes: 1 for values plus 2 for glides.
pub fn takes_values(takes: u8) -> bool {
    takes & 1 == 1
}

pub fn takes_glides(takes: u8) -> bool {
    takes & 2 == 2
}

/// A generator has one channel or two.
pub fn channels(said: u8) -> usize {
    if said == 2 { 2 } else { 1 }
}
