//! Conversions at the limits, once in a run: each thing changed that a sheet has, each byte, cuts, every buffer, fields
//! of other songs, sheets of no seed, and inputs far longer than a sheet.

use super::changes::each;
use super::{
    NOT_THE_SEEDS, Song, compare_changed, compare_of_none, compare_own, compare_refused,
    compare_to_each,
};
use crate::edition::{EDITIONS, Edition, SHEET_MOST};
use crate::reread::by_hand;
use crate::reread::edges::longest;
use crate::reread::judge::FIELDS;
use crate::reread::sheets::{Bodies, COUNTS_MOST, Draws};
use crate::songs;
use crate::tally::Tally;
use std::collections::BTreeSet;

/// Each thing that can be changed in the sheets of these seeds. Every one of them has to occur.
fn compare_each(tally: &mut Tally, seeds: impl Iterator<Item = u64>) {
    let (mut all, mut seen) = (BTreeSet::new(), BTreeSet::new());
    for (seed, style) in seeds.flat_map(|seed| [(seed, 0), (seed, 1)]) {
        let (song, draws) = (Song::of(style, seed), &mut Draws::of(seed));
        let sheets = EDITIONS.map(|edition| song.bodies(edition));
        for (change, changed) in sheets.iter().flat_map(|sheet| each(draws, sheet)) {
            all.insert(change);
            if let Some(sheet) = changed {
                seen.insert(change);
                compare_changed(tally, &song, (change, &sheet));
            }
        }
    }
    assert_eq!(seen, all, "each occurs");
}

/// Each byte of a sheet with each one of its bits changed, and put to 0 and to 255.
fn compare_bytes(tally: &mut Tally, song: &Song, edition: Edition) {
    let mut bytes = song.sheet(edition).to_vec();
    for at in 0..bytes.len() {
        let before = bytes[at];
        let flipped = (0..8).map(|bit| before ^ 1 << bit);
        let others: BTreeSet<u8> = flipped.chain([0, 255]).collect();
        for byte in others.into_iter().filter(|&byte| byte != before) {
            bytes[at] = byte;
            let what = || format!("{bytes:x?}");
            assert!(song.song_of(&bytes).is_err(), "{} is no sheet", what());
            compare_to_each(tally, what, song, &bytes, |n| [n]);
        }
        bytes[at] = before;
    }
}

/// A sheet cut off at each length. What is cut off still lies behind the bytes that are lent, so that reading on shows.
fn compare_cut(tally: &mut Tally, song: &Song, edition: Edition) {
    let bytes = song.sheet(edition);
    for n in 0..bytes.len() {
        let what = || format!("the first {n} bytes of {bytes:x?}");
        compare_refused(tally, what, song, &bytes[..n], FIELDS);
    }
}

/// Every buffer that is too short for what has to be written, and some that are longer; and for the same sheet with
/// another dip, which is refused before a short buffer, each of them too.
fn compare_buffers(tally: &mut Tally, song: &Song, edition: Edition) {
    let lens = |n: usize| (0..=n + 20).chain([SHEET_MOST, 70_000]);
    compare_own(tally, song, edition, lens);
    let mut sheet = song.bodies(edition);
    let mut form = sheet.body(0x09).clone();
    form[5] ^= 1;
    sheet.set(0x09, form);
    let bytes = sheet.bytes();
    let what = || format!("{} with another dip", song.name(edition));
    assert_eq!(song.song_of(&bytes).err(), Some(NOT_THE_SEEDS));
    compare_to_each(tally, what, song, &bytes, lens);
}

/// Each field of a sheet from another song of its style and edition, where they differ. It is for the driver's own
/// reader to say whether the plays are then as long as the form.
fn compare_crossed(tally: &mut Tally, song: &Song, other: &Song, edition: Edition) {
    let (sheet, other) = (song.bodies(edition), other.bodies(edition));
    for tag in (0x01..=0x0a).filter(|&tag| sheet.body(tag) != other.body(tag)) {
        let mut crossed = sheet.clone();
        crossed.set(tag, other.body(tag).clone());
        let bytes = crossed.bytes();
        let what = || format!("{bytes:x?}");
        assert!(song.song_of(&bytes).is_err(), "{} is no sheet", what());
        compare_to_each(tally, what, song, &bytes, |n| [n + 40, 0]);
    }
}

/// A sheet with many bytes behind it or before it, one behind another, and no byte at all.
fn compare_long(tally: &mut Tally, song: &Song, edition: Edition) {
    let sheet = song.sheet(edition);
    for n in [1, 65_536 - sheet.len(), 65_536, 1 << 20] {
        let zeros = vec![0; n];
        let what = || format!("{} and {n} zeros", song.name(edition));
        compare_refused(tally, what, song, &[sheet, &zeros].concat(), FIELDS);
        let what = || format!("{n} zeros and {}", song.name(edition));
        compare_refused(tally, what, song, &[&zeros, sheet].concat(), FIELDS);
    }
    for behind in EDITIONS {
        let bytes = [sheet, song.sheet(behind)].concat();
        let what = || format!("{} and {}", song.name(edition), song.name(behind));
        compare_refused(tally, what, song, &bytes, FIELDS);
    }
    compare_refused(tally, || "no byte".into(), song, &[], FIELDS);
}

/// All of these for the sheets of a seed in one edition.
fn compare_sheets(tally: &mut Tally, seed: u64, edition: Edition) {
    for style in [0, 1] {
        let song = Song::of(style, seed);
        compare_bytes(tally, &song, edition);
        compare_cut(tally, &song, edition);
        compare_buffers(tally, &song, edition);
        compare_long(tally, &song, edition);
        for other in 1..16 {
            compare_crossed(tally, &song, &Song::of(style, other), edition);
        }
    }
}

/// Sheets of no seed: the one by hand, the longest, and drawn ones, with full lanes, with empty ones and with any.
fn compare_all_of_none(tally: &mut Tally, edition: Edition) {
    compare_of_none(tally, &Bodies::of(&by_hand::bytes(edition)));
    compare_of_none(tally, &longest(edition));
    for number in 0..16 {
        let draws = &mut Draws::of(number);
        for counts in [COUNTS_MOST, [0; 4], draws.counts()] {
            let shape = draws.shape();
            compare_of_none(tally, &draws.sheet(edition, counts, shape));
        }
    }
}

/// All of these in both editions. In the hiphop song of seed 0 the time of a hit is zero, which as a number is also
/// equal with its sign changed.
pub fn compare_all(tally: &mut Tally) {
    compare_each(tally, songs::RARE.into_iter().chain(0..16));
    for edition in EDITIONS {
        compare_sheets(tally, 0, edition);
        compare_all_of_none(tally, edition);
    }
}
