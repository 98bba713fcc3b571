//! Plays a script on the Rust: the script on standard input, the transcript on standard output (docs/REPLAY.md).

use std::io::{self, BufWriter, Read, Write};

fn main() -> io::Result<()> {
    let mut script = Vec::new();
    io::stdin().read_to_end(&mut script)?;
    // Where the player stops at an entry, the lines before it are written still.
    let mut out = BufWriter::new(io::stdout().lock());
    replay::player::transcript(&script).try_for_each(|lines| out.write_all(lines.as_bytes()))?;
    out.flush()
}
