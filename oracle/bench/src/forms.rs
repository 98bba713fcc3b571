//! Fades and sums of blocks of 128 samples, stereo, at 48 kHz: in floats, and in whole numbers. A round changes one sample of
//! the input and makes one call; a scene answers how many rounds were refused.

use crate::scenes::mixer;
use crate::time::timed;

pub fn fade_floats(table: u32, rounds: u32) -> (u32, f64) {
    let s = mixer(table);
    let (mut input, gains, mut out) = ([0.25; 256], [0.5; 240], [0.0; 256]);
    timed(rounds, || {
        (0..rounds).fold(0, |refused, i| {
            input[i as usize % 256] = 0.5;
            refused + s.fade_output(2, &input, &gains, u64::from(i) % 256, &mut out)
        })
    })
}

pub fn fade_whole(table: u32, rounds: u32) -> (u32, f64) {
    let s = mixer(table);
    let (mut input, gains, mut out) = ([1 << 21; 256], [1 << 23; 240], [0; 256]);
    timed(rounds, || {
        (0..rounds).fold(0, |refused, i| {
            input[i as usize % 256] = 1 << 22;
            refused + s.whole_fade_output(2, &input, &gains, u64::from(i) % 256, &mut out)
        })
    })
}

pub fn sum_floats(rounds: u32) -> (u32, f64) {
    let s = mixer(0);
    let (mut inputs, counts, mut out) = (Box::new([0.25; 16384]), [2; 64], [0.0; 256]);
    timed(rounds, || {
        (0..rounds).fold(0, |refused, i| {
            inputs[i as usize % 16384] = 0.5;
            refused + s.bus_sum(2, &inputs[..], &counts, &mut out)
        })
    })
}

pub fn sum_whole(rounds: u32) -> (u32, f64) {
    let s = mixer(0);
    let (mut inputs, counts, mut out) = (Box::new([1 << 21; 16384]), [2; 64], [0; 256]);
    timed(rounds, || {
        (0..rounds).fold(0, |refused, i| {
            inputs[i as usize % 16384] = 1 << 22;
            refused + s.whole_bus_sum(2, &inputs[..], &counts, &mut out)
        })
    })
}
