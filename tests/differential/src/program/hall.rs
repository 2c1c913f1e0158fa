//! The program `hall`: what it writes for records of every length, and for counts at the limits.

use super::{Program, input_of};
use crate::bytes::field;
use crate::halls::list;
use crate::tally::Tally;

/// How many halls are tried, each with a count of its own.
const HALLS: u64 = 200;

/// What the program has to write for an input: a record has 8 bytes of a hall's number and 2 of a count.
fn wanted(input: &[u8]) -> Vec<u8> {
    let list = match input.try_into() {
        Ok::<[u8; 10], _>([hall @ .., high, low]) => {
            let count = u16::from_be_bytes([high, low]);
            list(u64::from_be_bytes(hall), count.into())
        }
        Err(_) => Err(5),
    };
    list.unwrap_or_else(|number| field(0x7f, &[number]))
}

/// Inputs at the limits: records of other lengths, counts that are none, an input that comes byte by byte, and none
/// at all; and lists of many halls.
pub fn compare_edges(tally: &mut Tally, path: &str) {
    let program = Program { path, wanted };
    program.compare_lengths(tally, &[9, 10, 11, 13]);
    let record = |hall: &[u8], count: u16| [hall, &count.to_be_bytes()].concat();
    for count in [0, 1, 2, 255, 256, 4095, 4096, 4097, 8192, 32_768, 65_535] {
        program.compare_input(tally, &record(&input_of(8), count));
    }
    for i in 0..HALLS {
        let hall = crate::seed_of(i).to_be_bytes();
        program.compare_input(tally, &record(&hall, 1 + i as u16 * 20));
    }
}
