//! The program `paper`: what it writes for records of every length, and to every style byte.

use super::{Program, input_of};
use crate::bytes::{field, sheet_of};
use crate::edition::Edition;
use crate::tally::Tally;

/// How many seeds are tried: in style 0 by 8 bytes and by 9, and in style 1.
const SEEDS: u64 = 200;

/// What document 01 has the program write for an input.
fn wanted(input: &[u8]) -> Vec<u8> {
    let (seed, style) = match input {
        [seed @ .., style] if seed.len() == 8 => (seed, *style),
        seed => (seed, 0),
    };
    match (seed.try_into(), style) {
        (Err(_), _) => field(0x7f, &[5]),
        (Ok(seed), 0 | 1) => sheet_of(Edition::Two, style, u64::from_be_bytes(seed)),
        _ => field(0x7f, &[1]),
    }
}

/// Seeds with and without a style byte.
fn compare_seeds(tally: &mut Tally, program: &Program) {
    for seed in (0..SEEDS).map(|i| crate::seed_of(i).to_be_bytes()) {
        for style in [&[][..], &[0], &[1]] {
            program.compare_input(tally, &[&seed[..], style].concat());
        }
    }
}

/// Inputs at the limits: records of other lengths, styles that are none, an input that comes byte by byte,
/// and none at all.
pub fn compare_edges(tally: &mut Tally, path: &str) {
    let program = Program { path, wanted };
    program.compare_lengths(tally, &[8, 9, 12]);
    for style in 0..=255 {
        program.compare_input(tally, &[&input_of(8)[..], &[style]].concat());
    }
    compare_seeds(tally, &program);
}
