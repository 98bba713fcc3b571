//! Books (docs/BOOKS.md) of definitions whose nodes stand in a row. 64 voices of 7 nodes find a place, and 64 of 6 nodes with a fade
//! each.

use std::sync::LazyLock;

pub static OF_6: LazyLock<Vec<u8>> = LazyLock::new(|| chain(6));
pub static OF_7: LazyLock<Vec<u8>> = LazyLock::new(|| chain(7));
pub static OF_8: LazyLock<Vec<u8>> = LazyLock::new(|| chain(8));
pub static OF_24: LazyLock<Vec<u8>> = LazyLock::new(|| chain(24));

/// A record: its whole length, its kind, and its fields.
fn record(kind: u8, fields: &[u8]) -> Vec<u8> {
    [&[fields.len() as u8 + 4, 0, kind, 0], fields].concat()
}

fn padded(name: &[u8]) -> Vec<u8> {
    [&[name.len() as u8][..], name, &[0; 16][name.len()..]].concat()
}

/// The edge `i`: first each node to the next, then each to the next but one, then the first three to the next but two.
fn edge(i: u8) -> [u8; 3] {
    let (from, step) = match i {
        0..23 => (i, 1),
        23..45 => (i - 23, 2),
        _ => (i - 45, 3),
    };
    [from, from + step, step - 1]
}

/// `nodes` nodes of three ports, each of which feeds the next, through which silence passes and which take values and glides; the last
/// one sounds, and the parameter `amp` is for the first. 24 nodes have 48 edges, as many as a definition may have.
fn chain(nodes: u8) -> Vec<u8> {
    let edges = if nodes == 24 { 48 } else { nodes - 1 };
    let node = record(2, &[&padded(b"OnePole")[..], &[3, 0, 3, 0, 255, 255]].concat());
    let mut book = record(1, &[nodes, nodes - 1]);
    (0..nodes).for_each(|_| book.extend(&node));
    (0..edges).for_each(|i| book.extend(record(3, &edge(i))));
    book.extend(record(4, &[&padded(b"amp")[..], &[0]].concat()));
    book
}
