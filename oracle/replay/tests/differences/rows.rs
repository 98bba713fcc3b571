//! A script as a table: an entry, what the store answers, what the Rust does. The player of docs/REPLAY.md answers as the
//! store does, but where a paper orders a change and the Rust is built without it.

use std::path::Path;
use std::{env, fs};

use microsynth::IS_PUBLISHED;
use microsynth::engine::Engine;
use replay::script::Call;

use crate::entries;
use crate::unguarded::Unguarded;

pub struct Row {
    call: Call,
    store: String,
    player: String,
    /// None where the Rust has no such call, or none but through the player.
    rust: Option<String>,
}

/// Both answer alike.
pub fn same(call: Call, answer: &str) -> Row {
    departs(call, answer, answer)
}

pub fn departs(call: Call, store: &str, rust: &str) -> Row {
    Row { rust: Some(rust.to_string()), ..alone(call, store) }
}

/// The Rust has no such call.
pub fn alone(call: Call, store: &str) -> Row {
    changed(call, store, store)
}

/// The player answers as the store does with the changes of `oracle/changes`, and otherwise on the Rust as it was published.
pub fn changed(call: Call, store: &str, published: &str) -> Row {
    let player = if IS_PUBLISHED { published } else { store };
    Row { call, store: store.to_string(), player: player.to_string(), rust: None }
}

/// Plays the script on both, compares the answers with the table and the script with the recorded one, and answers the
/// Rust's engine.
pub fn compare(name: &str, rows: impl IntoIterator<Item = Row>) -> Engine {
    let rows: Vec<Row> = rows.into_iter().collect();
    let calls: Vec<Call> = rows.iter().map(|row| row.call.clone()).collect();
    let script = entries::script(&calls);
    let lines = |answer: fn(&Row) -> &str| -> String {
        rows.iter().map(|row| format!("{}\n", answer(row))).collect::<String>() + &format!("played {}\n", rows.len())
    };
    let transcript = lines(|row| &row.store);
    assert_eq!(entries::transcript(&script), lines(|row| &row.player), "{name}: the player");
    let mut rust = Unguarded::default();
    for Row { call, rust: said, .. } in &rows {
        if let Some(said) = said {
            assert_eq!(&rust.answer(call), said, "{name}: the Rust at {call:?}");
        }
    }
    record(&format!("{name}.script"), &script);
    record(&format!("{name}.transcript"), transcript.as_bytes());
    rust.engine
}

/// A vector of this sort and the line that the store's function answers. The Rust cannot be asked this question.
pub fn ask(name: &str, sort: u8, fields: &[u8], line: &str) {
    record(&format!("{name}.vectors"), &[&1_u32.to_le_bytes(), &[sort][..], fields].concat());
    record(&format!("{name}.transcript"), format!("{line}\nvectors 1\n").as_bytes());
}

/// Compares with what is recorded, or writes it where RECORD is set.
fn record(file: &str, bytes: &[u8]) {
    let path = Path::new(env!("CARGO_MANIFEST_DIR")).join("../differences").join(file);
    if env::var_os("RECORD").is_some() {
        fs::write(&path, bytes).expect("the folder can be written");
    }
    assert!(fs::read(&path).is_ok_and(|recorded| recorded == bytes), "{file} is not what is recorded: set RECORD");
}
