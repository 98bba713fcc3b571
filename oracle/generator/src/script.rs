//! A written script, and the sample that is recorded.

use crate::reach::Reach;
use crate::scenes;

#[derive(Default)]
pub struct Script {
    pub bytes: Vec<u8>,
    /// How many bytes its transcript has.
    pub answered: usize,
    pub reach: Reach,
}

impl Script {
    /// The bytes of script and transcript.
    pub fn size(&self) -> usize {
        self.bytes.len() + self.answered
    }

    fn append(&mut self, other: Script) {
        self.bytes.extend(other.bytes);
        self.answered += other.answered;
        self.reach.add(other.reach);
    }
}

/// How many short scenes and how many of sealed boards the sample is chosen from, and how long it may become with its
/// transcript.
const CANDIDATES: usize = 1600;
const BOARDS: usize = 400;
const SAMPLE_SIZE: usize = 560_000;

/// The script that is recorded: the big console, then one after the other the scene that adds the most for its length to
/// what is reached, until each row is reached once, then until it is twice, and so on.
pub fn sample(seed: u64) -> Script {
    let scenes = (0..CANDIDATES).map(|number| scenes::short(seed, number));
    let boards = (0..BOARDS).map(|number| scenes::short_board(seed, number));
    let mut candidates: Vec<Script> = scenes.chain(boards).collect();
    let mut sample = scenes::console();
    for wanted in [1, 2, 4, 8, 16] {
        loop {
            let fits = |n: &usize| sample.size() + candidates[*n].size() <= SAMPLE_SIZE;
            let gain = |n: &usize| 1_000_000 * candidates[*n].reach.adds(&sample.reach, wanted) / candidates[*n].size();
            match (0..candidates.len()).filter(fits).max_by_key(gain) {
                Some(best) if gain(&best) > 0 => sample.append(candidates.swap_remove(best)),
                _ => break,
            }
        }
    }
    sample
}
