//! Times the store's calls, some beside the Rust's, and measures their stack: `bench [REPETITIONS]`, a median of so many.

mod book;
mod c;
mod calls;
mod console;
mod forms;
mod rust;
mod scenes;
mod stack;
mod store;
mod time;

use std::env;

use calls::Line;
use time::median;

/// A block of 128 samples at 48 kHz, in microseconds.
const BLOCK: f64 = 128.0 / 48_000.0 * 1e6;

/// The bytes of stack that the deepest call may need.
const STACK: usize = 96 * 1024;

/// So many rounds of a scene: a number into which every answer went, and the microseconds of a round.
type Scene = fn(u32) -> (u32, f64);

/// A scene that both sides have: what a round is, how many rounds a repetition has, how many repetitions there are at most, the
/// store's side, the Rust's, and the goal for the ratio of their times.
struct Compared {
    round: &'static str,
    rounds: u32,
    repetitions: usize,
    store: Scene,
    rust: Scene,
    goal: f64,
}

/// The 10,000 prepares are timed one by one, so that their median needs no second repetition.
const COMPARED: [Compared; 4] = [
    Compared {
        round: "note: spawn, prepare, render and clearing, budget 32",
        rounds: 1_000,
        repetitions: usize::MAX,
        store: scenes::notes,
        rust: rust::notes,
        goal: 0.1,
    },
    Compared {
        round: "prepare, 512 nodes, 1,024 edges",
        rounds: 10_000,
        repetitions: 1,
        store: scenes::prepares,
        rust: rust::prepare,
        goal: 0.1,
    },
    Compared {
        round: "port search, 1 port, 1,024 edges",
        rounds: 10_000,
        repetitions: usize::MAX,
        store: |n| scenes::ports(1, n),
        rust: |n| rust::ports(1, n),
        goal: 1.0,
    },
    Compared {
        round: "port search, 64 ports, 1,024 edges",
        rounds: 10_000,
        repetitions: usize::MAX,
        store: |n| scenes::ports(64, n),
        rust: |n| rust::ports(64, n),
        goal: 1.0,
    },
];

/// Fades and sums in both forms: what a round is, how many there are, in floats, and in whole numbers.
const FORMS: [(&str, u32, Scene, Scene); 3] = [
    ("fade output, 240 gains lent", 100_000, |n| forms::fade_floats(0, n), |n| forms::fade_whole(0, n)),
    ("fade output, the fade table", 10_000, |n| forms::fade_floats(1, n), |n| forms::fade_whole(1, n)),
    ("bus sum, 64 ports", 10_000, forms::sum_floats, forms::sum_whole),
];

fn kept(value: f64, goal: f64) -> &'static str {
    if value <= goal { "kept" } else { "MISSED" }
}

/// The answer, which must be the same every time, and the median of the times.
fn repeated(repetitions: usize, run: impl Fn() -> (u32, f64)) -> (u32, f64) {
    let (answers, times): (Vec<u32>, Vec<f64>) = (0..repetitions).map(|_| run()).unzip();
    assert!(answers.iter().all(|a| *a == answers[0]), "the answers differ from one repetition to the next");
    (answers[0], median(times))
}

fn compare(repetitions: usize) {
    println!("{:54}{:>8}{:>10}{:>10}{:>8}{:>7}", "a round", "rounds", "store µs", "Rust µs", "ratio", "goal");
    let mut times = Vec::new();
    for Compared { round, rounds, repetitions: most, store, rust, goal } in COMPARED {
        let repetitions = repetitions.min(most);
        let (answer, mine) = repeated(repetitions, || store(rounds));
        let (other, theirs) = repeated(repetitions, || rust(rounds));
        assert_eq!(answer, other, "{round}: the two sides answer differently");
        let ratio = mine / theirs;
        println!("{round:54}{rounds:8}{mine:10.2}{theirs:10.2}{ratio:8.3}{goal:7.2}  {}", kept(ratio, goal));
        times.push(mine);
    }
    let ratio = times[3] / times[2];
    println!("{:82}{ratio:8.3}{:7.2}  {}", "port search of the store, 64 ports to 1 port", 1.5, kept(ratio, 1.5));
}

/// Both forms take turns, so that what else the machine does falls on either.
fn compare_forms(repetitions: usize) {
    println!("\n{:54}{:>8}{:>10}{:>10}{:>8}{:>7}", "a block", "rounds", "floats µs", "whole µs", "ratio", "goal");
    for (name, rounds, floats, whole) in FORMS {
        let turn = |_| {
            let ((refused, first), (also, second)) = (floats(rounds), whole(rounds));
            assert_eq!((refused, also), (0, 0), "no round is refused");
            (first, second)
        };
        let (first, second): (Vec<f64>, Vec<f64>) = (0..repetitions).map(turn).unzip();
        let (first, second) = (median(first), median(second));
        let ratio = second / first;
        println!("{name:54}{rounds:8}{first:10.3}{second:10.3}{ratio:8.3}{:7.2}  {}", 1.0, kept(ratio, 1.0));
    }
}

fn time_calls<S: Clone>(repetitions: usize, lines: &[Line<S>]) {
    println!("\n{:22}{:42}{:>7}{:>9}{:>11}{:>7}{:>10}", "a call", "", "rounds", "µs", "of a block", "goal", "answer");
    for line in lines {
        let (answer, mine) = repeated(repetitions, || calls::time(line));
        let part = mine / BLOCK;
        let (goal, verdict) = line.goal.map_or_else(Default::default, |g| (format!("{g:.2}"), kept(part, g)));
        println!(
            "{:22}{:42}{:7}{mine:9.2}{part:11.4}{goal:>7}{answer:10}  {verdict}",
            line.call, line.scene, line.rounds
        );
    }
}

/// The most of all the scenes of a call, a line each; answers the deepest.
fn measure_stacks<S>(lines: &[Line<S>]) -> usize {
    let most = |group: &[Line<S>]| {
        let bytes = group.iter().map(calls::stack).max().unwrap_or(0);
        println!("stack {} {bytes}", group[0].call);
        bytes
    };
    lines.chunk_by(|a, b| a.call == b.call).map(most).max().unwrap_or(0)
}

fn main() {
    let asked = env::args().nth(1).map(|n| n.parse().expect("usage: bench [REPETITIONS]"));
    let repetitions: usize = asked.unwrap_or(7).max(1);
    compare(repetitions);
    compare_forms(repetitions);
    time_calls(repetitions, calls::STORE);
    time_calls(repetitions, calls::CONSOLE);
    println!();
    let deepest = measure_stacks(calls::STORE).max(measure_stacks(calls::CONSOLE));
    println!("store {} bytes, {} of them the state", size_of::<store::Store>(), size_of::<store::State>());
    println!("stack deepest {deepest}, goal {STACK}  {}", kept(deepest as f64, STACK as f64));
}
