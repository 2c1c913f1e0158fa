//! The hall lists: the draws of the Rust's own stream, one after the other, laid out by document 02.

use crate::calls::compare_call;
use crate::dsp::NoiseStream;
use crate::dsp::reach::{next_u64, stream};
use crate::ours;
use crate::tally::Tally;
use std::collections::BTreeSet;

/// The most seeds of a list, by document 02, and the most bytes.
const COUNT_MOST: u64 = 4096;
pub const LIST_MOST: usize = 8 * COUNT_MOST as usize;

/// Halls whose lists are tried with every count below, and recorded.
pub const HALLS: [u64; 5] = [0, 1, 1_234_567, 1 << 63, u64::MAX];

/// Counts at the limits and far past them: some are 0 or 1 by their low bits, some wrap to few bytes when taken eight
/// times.
const COUNTS: [u64; 18] = [
    0,
    1,
    2,
    3,
    255,
    256,
    4095,
    4096,
    4097,
    65_536,
    65_537,
    1 << 32,
    (1 << 32) + 1,
    1 << 61,
    (1 << 61) + 1,
    1 << 63,
    (1 << 63) + 1,
    u64::MAX,
];

/// The longest buffer that is lent, with room for far more seeds than a list may have.
const LENT_MOST: usize = 1 << 20;

/// How many seeds the list has that is tried with every buffer too short for it.
const SMALL: u64 = 9;

/// The list that document 02 asks for, or the number of its refusal.
pub fn list(hall: u64, count: u64) -> Result<Vec<u8>, u8> {
    if !(1..=COUNT_MOST).contains(&count) {
        return Err(6);
    }
    let mut drawn = NoiseStream::new(hall);
    let seeds = (0..count).flat_map(|_| next_u64(&mut drawn).to_be_bytes());
    Ok(seeds.collect())
}

fn name(hall: u64, count: u64) -> String {
    format!("the list of {count} seeds of hall {hall:#x}")
}

/// A list, into a buffer of `len` places.
fn compare_list(tally: &mut Tally, hall: u64, count: u64, len: usize) {
    let wanted = list(hall, count);
    let asked = wanted.as_deref().map_err(|&number| number.into());
    compare_call(
        tally,
        || name(hall, count),
        asked,
        asked.unwrap_or_default(),
        len,
        |buf| ours::hall_list(hall, count, buf),
    );
}

/// Of one hall a list of at most 64 seeds, whose count its number decides, into buffers that are long, just as long
/// and a byte short.
pub fn compare_seed(tally: &mut Tally, hall: u64) {
    let count = 1 + next_u64(&mut stream(hall, 0)) % 64;
    let bytes = 8 * count as usize;
    for len in [bytes + 40, bytes, bytes - 1] {
        compare_list(tally, hall, count, len);
    }
}

fn our_list(tally: &mut Tally, hall: u64, count: u64) -> Vec<u8> {
    let mut list = vec![0; 8 * count as usize];
    let answer = ours::hall_list(hall, count, &mut list);
    let input = || format!("the answer of {}", name(hall, count));
    tally.same(input, list.len() as i64, answer);
    list
}

/// A hall's longest list, and what holds of our own bytes with no look at the Rust's: no two seeds are equal, and
/// the list starts with each shorter one.
pub fn compare_longest(tally: &mut Tally, hall: u64) {
    compare_list(tally, hall, COUNT_MOST, LIST_MOST);
    let longest = our_list(tally, hall, COUNT_MOST);
    let what = || name(hall, COUNT_MOST);
    let seeds: BTreeSet<&[u8]> = longest.chunks(8).collect();
    let input = || format!("how many seeds differ in {}", what());
    tally.same(input, COUNT_MOST as usize, seeds.len());
    for count in [1, 2, 3, 255, 256, COUNT_MOST - 1] {
        let starts = longest.starts_with(&our_list(tally, hall, count));
        let input = || format!("whether {} starts with that of {count}", what());
        tally.same(input, true, starts);
    }
}

/// The lengths of buffers that are tried with a count: few bytes, the longest list's, and those around eight times
/// the count, also where that wraps.
fn lengths(count: u64) -> BTreeSet<usize> {
    let bytes = count.wrapping_mul(8);
    let around = [bytes.wrapping_sub(1), bytes, bytes.wrapping_add(40)].map(|n| n as usize);
    let all = (0..=17).chain([LIST_MOST]).chain(around);
    all.filter(|&len| len <= LENT_MOST).collect()
}

/// Inputs at the limits: each of the counts with each of its buffers, and every buffer too short for a small list.
pub fn compare_edges(tally: &mut Tally) {
    for hall in HALLS {
        for count in COUNTS {
            for len in lengths(count) {
                compare_list(tally, hall, count, len);
            }
        }
        for len in 0..8 * SMALL as usize {
            compare_list(tally, hall, SMALL, len);
        }
        compare_longest(tally, hall);
    }
}
