//! Writes call scripts.
//!
//! `generator scripts SEED CALLS FOLDER` writes scripts of some thousand calls each, about so many calls in all, and with
//! every third of them one of sealed boards;
//! `generator sample SEED FILE` writes the one script that is recorded. With `--reach` at the end it also prints what
//! they reach. `generator shrink SCRIPT PROGRAM` cuts a script that the program answers otherwise than the Rust.

use std::fs;
use std::path::Path;
use std::process;

use generator::reach::Reach;
use generator::{scenes, script, shrink};

/// About how many calls a script has.
const SCRIPT_CALLS: usize = 3000;

/// One script of sealed boards goes with so many others.
const SEALED_ONCE_IN: usize = 3;

fn main() {
    let words: Vec<String> = std::env::args().skip(1).collect();
    let words: Vec<&str> = words.iter().map(String::as_str).collect();
    let (reach, prints) = match words[..] {
        ["shrink", script, program] => return shrink(Path::new(script), Path::new(program)),
        ["scripts", seed, calls, folder, ref rest @ ..] => {
            (scripts(number(seed), count(calls), Path::new(folder)), rest == ["--reach"])
        }
        ["sample", seed, file, ref rest @ ..] => (sample(number(seed), Path::new(file)), rest == ["--reach"]),
        _ => refuse(
            "usage: generator scripts SEED CALLS FOLDER [--reach] | sample SEED FILE [--reach] | shrink SCRIPT PROGRAM",
        ),
    };
    println!("{} scripts, {} calls, {} of them states", reach.scripts, reach.calls, reach.states);
    let Reach { sealed_calls, open_spawns, open_turns, .. } = reach;
    let sevens = reach.sevens();
    println!(
        "{sealed_calls} calls on sealed boards; {open_spawns} open spawns and {open_turns} turns, {sevens} refused with 7"
    );
    if prints {
        println!("{reach}");
    }
    if sevens > 0 {
        refuse("a spawn on a sealed board met refusal 7");
    }
}

/// Writes the short script in place of the long one, and prints its calls.
fn shrink(path: &Path, program: &Path) {
    let script = fs::read(path).unwrap_or_else(|e| refuse(&format!("{}: {e}", path.display())));
    if !shrink::differs(&script, program) {
        refuse("the answers do not differ");
    }
    let calls = shrink::shrink(&script, program);
    write(path, &shrink::bytes_of(&calls));
    for call in calls {
        println!("{call:?}");
    }
}

/// Says what is wrong with the arguments, and ends.
fn refuse(why: &str) -> ! {
    eprintln!("{why}");
    process::exit(2)
}

fn number(word: &str) -> u64 {
    word.parse().unwrap_or_else(|_| refuse(&format!("'{word}' is not a whole number from 0 to 2^64 - 1")))
}

/// How many calls are asked for.
fn count(word: &str) -> usize {
    match number(word) {
        0 => refuse("of 0 calls there is no script: ask for 1 or more"),
        calls => calls as usize,
    }
}

fn write(path: &Path, script: &[u8]) {
    fs::write(path, script).unwrap_or_else(|e| refuse(&format!("{}: {e}", path.display())));
}

fn scripts(seed: u64, calls: usize, folder: &Path) -> Reach {
    fs::create_dir_all(folder).unwrap_or_else(|e| refuse(&format!("{}: {e}", folder.display())));
    let (mut reach, mut mixed) = (Reach::default(), 0);
    for number in 0.. {
        if mixed >= calls {
            break;
        }
        let script = scenes::script(seed, number, SCRIPT_CALLS.min(calls));
        mixed += script.reach.calls;
        write(&folder.join(format!("{number:04}.script")), &script.bytes);
        reach.add(script.reach);
        if number % SEALED_ONCE_IN == 0 {
            let sealed = scenes::sealed_script(seed, number / SEALED_ONCE_IN, SCRIPT_CALLS.min(calls));
            write(&folder.join(format!("sealed-{number:04}.script")), &sealed.bytes);
            reach.add(sealed.reach);
        }
    }
    reach
}

fn sample(seed: u64, file: &Path) -> Reach {
    let script = script::sample(seed);
    write(file, &script.bytes);
    for row in script.reach.missed() {
        println!("not reached: {row}");
    }
    println!("{} bytes with the transcript", script.size());
    script.reach
}
