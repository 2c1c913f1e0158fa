//! Sheets at the limits, once in a run: each kind of fault at each place, two faults at once, cuts, each shape of a
//! song, each byte and each exponent at each place, and inputs far longer than a sheet.

use super::faults::{Fault, faulty, structure_faults, value_faults};
use super::judge::{FIELDS, VALUES};
use super::sheets::{Bodies, COUNTS_MOST, Draws, Shape};
use super::{
    by_hand, compare_fault, compare_faults, compare_judged, compare_refused, compare_sound,
};
use crate::bytes::{field, sheet_of};
use crate::edition::{BACKING, EDITIONS, Edition, SHEET_MOST};
use crate::tally::Tally;

/// A song with both endings as long as they can be, and one that rings out.
const LONG: Shape = Shape {
    intro: (3, 8),
    phrases: 6,
    outro: (2, 8),
    dip: 1,
};
const RINGING: Shape = Shape {
    intro: (1, 4),
    phrases: 5,
    outro: (4, 2),
    dip: 0,
};

/// The sheet by hand.
fn short(edition: Edition) -> Bodies {
    Bodies::of(&by_hand::bytes(edition))
}

/// The sheet with as many events and bars as one can have, and a scale of six.
pub fn longest(edition: Edition) -> Bodies {
    let mut sheet = Draws::of(1).sheet(edition, COUNTS_MOST, LONG);
    sheet.set(0x04, vec![11, 0, 2, 5, 7, 9]);
    let (len, most) = (sheet.bytes().len(), edition.sheet_most());
    assert_eq!(len, most, "no sheet of {edition:?} is longer");
    sheet
}

/// The sheet by hand with another song in it.
fn reshaped(edition: Edition, shape: Shape, bars: usize) -> Bodies {
    let mut sheet = short(edition);
    sheet.set(0x09, shape.body());
    sheet.set(0x0a, vec![15; bars]);
    sheet
}

/// A shape, with plays as long as it tells and of each length that some song has. Whether a song can have the shape
/// says the list of all.
fn compare_shape(tally: &mut Tally, edition: Edition, shape: Shape) {
    let (lengths, is_one) = (Shape::lengths(), Shape::all().contains(&shape));
    for bars in lengths.union(&[shape.bars()].into()).copied() {
        let what = || format!("{shape:?} and {bars} bars in {edition:?}");
        let bytes = reshaped(edition, shape, bars).bytes();
        if !lengths.contains(&bars) {
            compare_refused(tally, what, &bytes, FIELDS);
        } else if is_one && bars == shape.bars() {
            compare_sound(tally, what, &bytes);
        } else {
            compare_refused(tally, what, &bytes, VALUES);
        }
    }
}

/// Each code of an ending, also those that are none, with numbers of bars that fit it or don't.
fn compare_endings(tally: &mut Tally, edition: Edition) {
    let codes = (0..=7).chain([16, 128, 129, 132, 255]);
    let bars: Vec<u8> = (0..=17).chain([32, 128, 132, 255]).collect();
    for ending in codes.flat_map(|code| bars.iter().map(move |&bars| (code, bars))) {
        for phrases in 2..=8 {
            let other = Shape { phrases, ..RINGING };
            let (intro, outro) = (ending, ending);
            compare_shape(tally, edition, Shape { intro, ..other });
            compare_shape(tally, edition, Shape { outro, ..other });
        }
    }
}

/// Plays of each length that no song has.
fn compare_plays(tally: &mut Tally, edition: Edition) {
    let lengths = Shape::lengths();
    for bars in (0..=320).filter(|bars| !lengths.contains(bars)) {
        let what = || format!("{RINGING:?} and {bars} bars in {edition:?}");
        let bytes = reshaped(edition, RINGING, bars).bytes();
        compare_refused(tally, what, &bytes, FIELDS);
    }
}

fn all_faults(sheet: &Bodies) -> Vec<Fault> {
    [value_faults(sheet), structure_faults(sheet)].concat()
}

/// Each fault at each place of a sheet.
fn compare_each(tally: &mut Tally, sheet: &Bodies) {
    for fault in all_faults(sheet) {
        compare_fault(tally, sheet, &fault);
    }
}

/// Each two faults at once.
fn compare_pairs(tally: &mut Tally, sheet: &Bodies) {
    let all = all_faults(sheet);
    for (i, a) in all.iter().enumerate() {
        for b in &all[i + 1..] {
            compare_faults(tally, sheet, [a, b]);
        }
    }
}

/// Bytes cut off at each length. What is cut off still lies behind the bytes that are lent, so that reading on shows.
fn compare_cut(tally: &mut Tally, bytes: &[u8]) {
    for n in 0..bytes.len() {
        let what = || format!("the first {n} bytes of {bytes:x?}");
        compare_refused(tally, what, &bytes[..n], FIELDS);
    }
}

/// A sheet with each value out of range, cut off at each length behind that value and before it.
fn compare_cut_bad(tally: &mut Tally, sheet: &Bodies) {
    for fault in value_faults(sheet) {
        compare_cut(tally, &faulty(sheet, &[&fault]));
    }
}

/// Each byte at each place of a sheet.
fn compare_bytes(tally: &mut Tally, sheet: &Bodies) {
    let mut bytes = sheet.bytes();
    for at in 0..bytes.len() {
        let before = bytes[at];
        for byte in 0..=255 {
            bytes[at] = byte;
            let what = || format!("{bytes:x?}");
            compare_judged(tally, what, &bytes, [bytes.len()]);
        }
        bytes[at] = before;
    }
}

/// Each sign and exponent, with mantissas at their limits, in each number of a sheet.
fn compare_floats(tally: &mut Tally, sheet: &Bodies) {
    let mantissas = [0, 1, 0x3f_ffff, 0x40_0000, 0x7f_ffff];
    let notes = [0x05, 0x06, 0x08].map(|tag| [1, 6, 10].map(|at| (tag, at)));
    let others = [(0x02, 0), (0x07, 2), (0x07, 6)];
    for (tag, at) in others.into_iter().chain(notes.concat()) {
        for bits in (0..512).flat_map(|top| mantissas.map(|low| top << 23 | low)) {
            let mut sheet = sheet.clone();
            let mut body = sheet.body(tag).clone();
            body[at..at + 4].copy_from_slice(&u32::to_be_bytes(bits));
            sheet.set(tag, body);
            let bytes = sheet.bytes();
            let what = || format!("{bytes:x?}");
            compare_judged(tally, what, &bytes, [bytes.len()]);
        }
    }
}

/// Each number of events that a lane can have, and more than it can.
fn compare_counts(tally: &mut Tally, edition: Edition) {
    for (i, most) in COUNTS_MOST.into_iter().enumerate() {
        for count in 0..=2 * most {
            let mut counts = [1; 4];
            counts[i] = count;
            let draws = &mut Draws::of(count as u64);
            let bytes = draws.sheet(edition, counts, RINGING).bytes();
            let what = || format!("a sheet of {edition:?} with {counts:?} events");
            match count <= most {
                true => compare_sound(tally, what, &bytes),
                false => compare_refused(tally, what, &bytes, FIELDS),
            }
        }
    }
}

/// Inputs far longer than a sheet: one with many bytes behind it, one behind another, and fields alone.
fn compare_long(tally: &mut Tally, sheet: &[u8]) {
    let zeros = |n: usize| vec![0; n];
    let many = [1, 65_535, 65_536, 65_536 - sheet.len(), 100_000, 1 << 20];
    for n in many {
        let what = || format!("{sheet:x?} and {n} zeros");
        compare_refused(tally, what, &[sheet, &zeros(n)].concat(), FIELDS);
        let what = || format!("{n} zeros and {sheet:x?}");
        compare_refused(tally, what, &[&zeros(n), sheet].concat(), FIELDS);
        compare_refused(tally, || format!("{n} zeros"), &zeros(n), FIELDS);
    }
    let twice = || format!("twice {sheet:x?}");
    compare_refused(tally, twice, &[sheet, sheet].concat(), FIELDS);
    for tag in 0..=0x0b {
        let bytes = field(tag, &zeros(65_535));
        let what = || format!("a field of tag {tag:#x} and 65535 zeros");
        compare_refused(tally, what, &bytes, FIELDS);
        compare_refused(tally, what, &bytes[..3], FIELDS);
        compare_refused(tally, what, &[sheet, &bytes].concat(), FIELDS);
    }
    compare_refused(tally, || "no byte".into(), &[], FIELDS);
}

/// Every buffer that is too short for a sheet, and some that are longer.
fn compare_buffers(tally: &mut Tally, sheet: &[u8]) {
    let lens = (0..=sheet.len() + 20).chain([SHEET_MOST, 70_000]);
    compare_judged(tally, || format!("{sheet:x?}"), sheet, lens);
}

/// Fields that are whole in both editions: 15 notes of 14 bytes, or 14 of 15, with one number for every byte. What
/// leads them decides, and in edition 2 the number is each note's role.
fn compare_both(tally: &mut Tally) {
    let mut sheet = Draws::of(2).sheet(Edition::One, [0; 4], RINGING);
    let others = BACKING..BACKING + 1;
    for (tag, roles) in [(0x05, 0..BACKING), (0x06, others.clone()), (0x08, others)] {
        for byte in 0..8 {
            sheet.set(tag, vec![byte; 14 * 15]);
            for edition in EDITIONS {
                sheet.edition = edition;
                let bytes = sheet.bytes();
                let what = || format!("{bytes:x?}");
                match edition == Edition::One || roles.contains(&byte) {
                    true => compare_sound(tally, what, &bytes),
                    false => compare_refused(tally, what, &bytes, VALUES),
                }
            }
        }
        sheet.set(tag, vec![]);
    }
}

/// All of these in an edition, over sheets of few events, the longest one and those of a seed.
fn compare_edition(tally: &mut Tally, edition: Edition) {
    let (short, longest) = (short(edition), longest(edition));
    let empty = Draws::of(2).sheet(edition, [0; 4], RINGING);
    let few = Draws::of(3).sheet(edition, [2, 3, 4, 2], LONG);
    for sheet in [&short, &empty, &few, &longest] {
        let bytes = sheet.bytes();
        compare_sound(tally, || format!("{bytes:x?}"), &bytes);
        compare_each(tally, sheet);
        compare_cut(tally, &bytes);
        compare_buffers(tally, &bytes);
        compare_long(tally, &bytes);
    }
    for sheet in [&short, &empty, &few] {
        compare_bytes(tally, sheet);
    }
    for style in [0, 1] {
        compare_cut(tally, &sheet_of(edition, style, 1));
    }
    compare_pairs(tally, &short);
    compare_cut_bad(tally, &short);
    compare_floats(tally, &short);
    compare_counts(tally, edition);
    for shape in Shape::all() {
        compare_shape(tally, edition, shape);
    }
    compare_endings(tally, edition);
    compare_plays(tally, edition);
}

/// All of these in both editions, once the driver's own reader has said what it must.
pub fn compare_all(tally: &mut Tally) {
    by_hand::assert_judged();
    for edition in EDITIONS {
        compare_edition(tally, edition);
    }
    compare_both(tally);
}
