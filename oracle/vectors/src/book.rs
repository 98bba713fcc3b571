//! Vectors as files: inputs in binary, little-endian, and the answers as lines of text. `docs/VECTORS.md` describes both.

use std::collections::BTreeMap;
use std::fmt::Write;
use std::path::Path;
use std::{fs, io};

use scripted::words;

/// One vector: its input, and the lines that are to be written for it.
#[derive(Default)]
pub struct Vector {
    pub input: Vec<u8>,
    pub answer: String,
}

impl Vector {
    /// A vector of this sort.
    pub fn new(sort: u8) -> Vector {
        let mut vector = Vector::default();
        vector.u8(sort);
        vector
    }

    pub fn u8(&mut self, n: u8) {
        self.input.push(n);
    }

    pub fn u32(&mut self, n: usize) {
        let n = u32::try_from(n).expect("a number of four bytes");
        self.input.extend(n.to_le_bytes());
    }

    pub fn u64(&mut self, n: u64) {
        self.input.extend(n.to_le_bytes());
    }

    pub fn f32(&mut self, x: f32) {
        self.u32(x.to_bits() as usize);
    }

    /// A level, or none: a flag and the pattern.
    pub fn level(&mut self, level: Option<f32>) {
        self.u8(level.is_some().into());
        self.f32(level.unwrap_or(0.0));
    }

    /// A count, and that many samples.
    pub fn samples(&mut self, samples: &[f32]) {
        self.u32(samples.len());
        for &x in samples {
            self.f32(x);
        }
    }

    /// A length in one byte, and that many bytes.
    pub fn name(&mut self, name: &[u8]) {
        self.u8(name.len().try_into().expect("a length of one byte"));
        self.input.extend(name);
    }

    /// Adds the input and the lines of what was made apart.
    pub fn append(&mut self, part: Vector) {
        self.input.extend(part.input);
        self.answer += &part.answer;
    }

    /// Ends the line with these words.
    pub fn line(&mut self, words: impl std::fmt::Display) {
        writeln!(self.answer, "{words}").expect("a string can be written");
    }

    /// A line that begins with a word and goes on with numbers, samples or the like.
    pub fn row<T: std::fmt::Display>(&mut self, word: &str, rest: impl IntoIterator<Item = T>) {
        self.line(words::row(word, rest));
    }
}

/// The pattern of an f64 in sixteen digits, every NaN as the same. Told by the pattern: of `x.is_nan()` just after a
/// root the compiler makes `x` itself.
pub fn hex64(x: f64) -> String {
    let bits = x.to_bits();
    let is_nan = bits & 0x7fff_ffff_ffff_ffff > 0x7ff0_0000_0000_0000;
    format!("{:016x}", if is_nan { 0x7ff8_0000_0000_0000 } else { bits })
}

/// One file of inputs and what is to be written for it.
#[derive(Default)]
struct File {
    count: u32,
    input: Vec<u8>,
    answer: String,
}

/// A file that holds this many bytes of input is not added to. The program reads 768 KiB at most, and no vector has more
/// than 64 KiB.
const FULL: usize = 320 * 1024;

/// The vectors of one leaf, or of several.
#[derive(Default)]
pub struct Book {
    files: Vec<File>,
    /// How many comparisons there are of each sort.
    pub counts: BTreeMap<&'static str, usize>,
}

impl Book {
    /// Adds a vector that makes this many comparisons.
    pub fn put(&mut self, sort: &'static str, comparisons: usize, vector: Vector) {
        if self.files.last().is_none_or(|f| f.input.len() >= FULL) {
            self.files.push(File::default());
        }
        let file = self.files.last_mut().expect("a file was put");
        file.count += 1;
        file.input.extend(vector.input);
        file.answer += &vector.answer;
        *self.counts.entry(sort).or_default() += comparisons;
    }

    /// Writes each file as `FOLDER/0.stdin` and `FOLDER/0.stdout`, and so on.
    pub fn write(&self, folder: &Path) -> io::Result<()> {
        fs::create_dir_all(folder)?;
        for (number, file) in self.files.iter().enumerate() {
            file.write(&folder.join(format!("{number}.")).display().to_string())?;
        }
        Ok(())
    }

    /// Adds the vectors of another book.
    pub fn append(&mut self, other: Book) {
        self.files.extend(other.files);
        self.counts.extend(other.counts);
    }

    /// Writes all vectors into one file, as `FOLDER/stdin` and `FOLDER/stdout`.
    pub fn write_as_one(&self, folder: &Path) -> io::Result<()> {
        let one = File {
            count: self.files.iter().map(|f| f.count).sum(),
            input: self.files.iter().flat_map(|f| f.input.clone()).collect(),
            answer: self.files.iter().map(|f| f.answer.as_str()).collect(),
        };
        fs::create_dir_all(folder)?;
        one.write(&folder.join("").display().to_string())
    }
}

impl File {
    fn write(&self, stem: &str) -> io::Result<()> {
        let input = [&self.count.to_le_bytes()[..], &self.input].concat();
        fs::write(format!("{stem}stdin"), input)?;
        fs::write(format!("{stem}stdout"), format!("{}vectors {}\n", self.answer, self.count))
    }
}
