//! Sheets read and written again: the answer, every byte written, and every byte that must stay. What is written is
//! what was read, byte for byte; which bytes are a sheet says the driver's own reader.

pub mod by_hand;
pub mod edges;
pub mod faults;
pub mod judge;
pub mod sheets;

use crate::bytes::sheet;
use crate::calls::compare_call;
use crate::compose::arrange;
use crate::compose::reach::{STYLES, take};
use crate::edition::{EDITIONS, Edition, SHEET_MOST};
use crate::tally::Tally;
use crate::{ours, songs};
use faults::{Fault, faulty, sheets_by_two, structure_faults, value_faults};
use judge::judge;
use sheets::{Bodies, COUNTS_MOST, Draws};

/// Bytes read into a song alone, and read and written again into a buffer of each of these lengths: by the call for C,
/// which makes no song, and by the reader's song and the canonical writer. What might be written are the bytes, also
/// where they are refused: a copy that is made before the refusal has to show.
fn compare_judged(
    tally: &mut Tally,
    what: impl Fn() -> String,
    bytes: &[u8],
    lens: impl IntoIterator<Item = usize>,
) {
    let judged = judge(bytes);
    let read = || format!("the refusal of {}, read alone", what());
    tally.same(read, judged.err().unwrap_or(0), ours::read(bytes).into());
    let asked = judged.map(|()| bytes);
    for len in lens {
        let back = || format!("{}, read back", what());
        compare_call(tally, back, asked, bytes, len, |buf| {
            ours::reread(bytes, buf)
        });
        let by_song = || format!("{}, read back by its song", what());
        compare_call(tally, by_song, asked, bytes, len, |buf| {
            ours::roundtrip(bytes, buf)
        });
    }
}

/// A sheet, into buffers with room to spare, just as long and a byte short.
fn compare_sound(tally: &mut Tally, what: impl Fn() -> String + Copy, sheet: &[u8]) {
    assert_eq!(judge(sheet), Ok(()), "{} is a sheet", what());
    let n = sheet.len();
    compare_judged(tally, what, sheet, [n + 40, n, n - 1]);
}

/// Bytes that are refused by this number, into a buffer with room to spare, into one of as many places and into one of
/// none: the refusal comes before that of a short buffer. For more bytes than a sheet can have, the buffers are those
/// for the longest sheet.
fn compare_refused(tally: &mut Tally, what: impl Fn() -> String + Copy, bytes: &[u8], number: i64) {
    assert_eq!(judge(bytes), Err(number), "{}", what());
    let n = bytes.len().min(SHEET_MOST);
    compare_judged(tally, what, bytes, [n + 40, n, 0]);
}

/// A sheet with one fault.
fn compare_fault(tally: &mut Tally, sheet: &Bodies, fault: &Fault) {
    let what = || format!("{fault:?} in {:x?}", sheet.bytes());
    compare_refused(tally, what, &faulty(sheet, &[fault]), fault.number());
}

/// A sheet with two faults: 7 if either is of the fields, wherever the two stand, unless they make a sheet again.
fn compare_faults(tally: &mut Tally, sheet: &Bodies, two: [&Fault; 2]) {
    let bytes = faulty(sheet, &two);
    let what = || format!("{two:?} in {:x?}", sheet.bytes());
    // 7 comes before 8
    let number = two[0].number().min(two[1].number());
    match sheets_by_two(sheet).contains(&bytes) {
        true => compare_sound(tally, what, &bytes),
        false => compare_refused(tally, what, &bytes, number),
    }
}

/// One byte of a sheet changed, or one more, or one less: which, the draws decide. Every other time it is one of the
/// first or of the last bytes, since most of the others are those of numbers, where nearly all is in range.
fn flipped(draws: &mut Draws, sheet: &[u8]) -> Vec<u8> {
    let (mut bytes, n) = (sheet.to_vec(), sheet.len());
    let at = match draws.below(4) {
        0 => draws.below(70),
        1 => n - 1 - draws.below(80),
        _ => draws.below(n),
    };
    let byte = draws.below(256) as u8;
    match draws.below(8) {
        0 => bytes.insert(at, byte),
        1 => drop(bytes.remove(at)),
        2 | 3 => bytes[at] = byte,
        _ => bytes[at] ^= 1 << (byte % 8),
    }
    bytes
}

/// Of one seed the sheets of its songs in both editions, and some of them with a byte changed.
pub fn compare_seed(tally: &mut Tally, seed: u64) {
    let draws = &mut Draws::of(seed);
    for style in [0, 1] {
        let (take, form) = (take(STYLES[usize::from(style)], seed), arrange(seed));
        for edition in EDITIONS {
            let sheet = sheet(edition, style, seed, &take, &form);
            let what = || format!("the sheet of {seed:#x} in style {style}, {edition:?}");
            compare_sound(tally, what, &sheet);
            for _ in 0..3 {
                let bytes = flipped(draws, &sheet);
                let what = || format!("{}, now {bytes:x?}", what());
                compare_judged(tally, what, &bytes, [SHEET_MOST]);
            }
        }
    }
}

/// How many faults of values and of fields are tried in a made sheet, each alone and both at once.
const FAULTS: usize = 24;

/// Some of the faults that a sheet can have.
fn compare_some(tally: &mut Tally, draws: &mut Draws, sheet: &Bodies) {
    let (values, structure) = (value_faults(sheet), structure_faults(sheet));
    for _ in 0..FAULTS {
        let (a, b) = (draws.one_of(&values), draws.one_of(&structure));
        compare_fault(tally, sheet, a);
        compare_fault(tally, sheet, b);
        compare_faults(tally, sheet, [a, b]);
    }
}

/// Of one seed sheets that it makes: with lanes of any length, with full ones, with empty ones, and with a few events,
/// which last one also gets faults.
fn compare_made_in(tally: &mut Tally, edition: Edition, seed: u64) {
    let draws = &mut Draws::of(!seed);
    let few = [0; 4].map(|_| draws.below(4));
    let sheets = [draws.counts(), COUNTS_MOST, [0; 4], few].map(|counts| {
        let shape = draws.shape();
        draws.sheet(edition, counts, shape)
    });
    for (i, sheet) in sheets.iter().enumerate() {
        let what = || format!("sheet {i} of {edition:?} made from {seed:#x}");
        compare_sound(tally, what, &sheet.bytes());
    }
    compare_some(tally, draws, &sheets[3]);
}

/// Such sheets of one seed in both editions.
pub fn compare_made(tally: &mut Tally, seed: u64) {
    for edition in EDITIONS {
        compare_made_in(tally, edition, seed);
    }
}

/// Inputs at the limits, and the seeds of songs that are rare.
pub fn compare_edges(tally: &mut Tally) {
    edges::compare_all(tally);
    for seed in songs::RARE {
        compare_seed(tally, seed);
    }
}
