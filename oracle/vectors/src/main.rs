//! Writes vectors for the leaves: what the program `vectors` reads, and what the Rust answers.
//!
//! `vectors all SEED FOLDER` writes very many, in files of a size that the program reads at once; `vectors sample SEED
//! FOLDER` writes a few of each, as one file. Names of leaves may follow; without any it is all of them.

mod book;
mod bus;
mod graph;
mod level;
mod scheduler;
mod synthdef;
mod voice;

use std::path::Path;
use std::process;

use book::Book;
use seeded::rng::Rng;

/// One leaf: how its vectors are made, and how many of them, all in all and in the sample.
struct Leaf {
    name: &'static str,
    book: fn(&mut Rng, usize) -> Book,
    all: usize,
    sample: usize,
}

const fn leaf(name: &'static str, book: fn(&mut Rng, usize) -> Book, all: usize, sample: usize) -> Leaf {
    Leaf { name, book, all, sample }
}

const LEAVES: [Leaf; 6] = [
    leaf("level", level::book, 4000, 100),
    leaf("bus", bus::book, 4000, 60),
    leaf("graph", graph::book, 3000, 60),
    leaf("scheduler", scheduler::book, 3000, 50),
    leaf("voice", voice::book, 8000, 100),
    leaf("synthdef", synthdef::book, 8000, 200),
];

/// Says what is wrong with the arguments, and ends.
fn refuse(why: &str) -> ! {
    eprintln!("{why}");
    process::exit(2)
}

fn main() {
    let words: Vec<String> = std::env::args().skip(1).collect();
    let [how, seed, folder, names @ ..] = &words[..] else {
        refuse("usage: vectors all|sample SEED FOLDER [LEAF..]");
    };
    let seed = seed.parse().unwrap_or_else(|_| refuse(&format!("'{seed}' is not a whole number from 0 to 2^64 - 1")));
    let is_sample = how == "sample";
    let mut book = Book::default();
    for leaf in LEAVES.iter().filter(|leaf| names.is_empty() || names.iter().any(|n| n == leaf.name)) {
        let mut rng = Rng::new(seed, leaf.name);
        book.append((leaf.book)(&mut rng, if is_sample { leaf.sample } else { leaf.all }));
    }
    let folder = Path::new(folder);
    let written = if is_sample { book.write_as_one(folder) } else { book.write(folder) };
    written.unwrap_or_else(|e| panic!("{}: {e}", folder.display()));
    for (sort, count) in &book.counts {
        println!("{count} {sort}");
    }
}
