//! A short part of a script that the Rust and another program still answer differently.

use std::io::Write;
use std::panic;
use std::path::Path;
use std::process::{Command, Stdio};
use std::thread;

use replay::player::transcript;
use replay::script::{Call, decode};

/// Leaves out runs of calls, ever shorter ones, as long as the answers differ.
pub fn shrink(script: &[u8], program: &Path) -> Vec<Call> {
    let mut calls = calls_of(script);
    let mut run = calls.len().div_ceil(2);
    while run > 0 {
        let mut at = 0;
        while at < calls.len() {
            let mut fewer = calls.clone();
            fewer.drain(at..calls.len().min(at + run));
            if differs(&bytes_of(&fewer), program) {
                calls = fewer;
            } else {
                at += run;
            }
        }
        run /= 2;
    }
    calls
}

/// The whole entries of a script.
fn calls_of(script: &[u8]) -> Vec<Call> {
    let (mut calls, mut at) = (vec![], 0);
    while let Ok((call, next)) = decode(script, at) {
        calls.push(call);
        at = next;
    }
    calls
}

pub fn bytes_of(calls: &[Call]) -> Vec<u8> {
    let mut bytes = vec![];
    calls.iter().for_each(|call| call.encode(&mut bytes));
    bytes
}

/// Whether the two answer differently. A script that the Rust's player cannot play to its end, as where a report is
/// left without its render, shows nothing.
pub fn differs(script: &[u8], program: &Path) -> bool {
    let hook = panic::take_hook();
    panic::set_hook(Box::new(|_| ()));
    let expected = panic::catch_unwind(|| transcript(script).collect::<String>());
    panic::set_hook(hook);
    expected.is_ok_and(|expected| expected.into_bytes() != answer(script, program))
}

fn answer(script: &[u8], program: &Path) -> Vec<u8> {
    let command = Command::new(program).stdin(Stdio::piped()).stdout(Stdio::piped()).stderr(Stdio::null()).spawn();
    let mut child = command.unwrap_or_else(|e| panic!("{}: {e}", program.display()));
    let mut input = child.stdin.take().expect("the input is a pipe");
    thread::scope(|scope| {
        // A program that stops early does not read on.
        scope.spawn(move || input.write_all(script).ok());
        child.wait_with_output().expect("the program's output can be read").stdout
    })
}
