//! One sheet in both editions and its faults, byte by byte by hand: what the driver's own reader must say of them, so
//! that it can't agree with anything whatever.

use super::judge::judge;
use super::sheets::Bodies;
use crate::bytes::front;
use crate::edition::{EDITIONS, Edition};

/// A sheet with one event in each lane, and no intro and no outro around its 32 bars. Numbers that no song has are in
/// it: a negative tempo, a negative zero, subnormal numbers, the largest.
const EDITION_1: &str = "
    01 000a 01 fedcba9876543210 03                                      | style, seed, voice
    02 0004 c2980000                                                    | tempo
    03 0020 0001027f 1014171b 2024272b 3034373b                         | chords
            4044474b 5054575b 6064676b 7f7f7f7f
    04 0005 0b 00 02 02 07                                              | scale
    05 000e 07 80000000 7f 3f800000 bf800000                            | lead
    06 000e 00 00000001 00 7f7fffff ff7fffff                            | keys
    07 000a 03 03 807fffff 00800000                                     | hits
    08 000e 01 40490fdb 2a 00000000 3e800000                            | bass
    09 0006 00 00 04 00 00 01                                           | ends, phrases, dip
    0a 0020 000102030405060708090a0b0c0d0e0f                            | plays
            0f0f0f0f070707070101010100000000
";

/// The same, the lead's note with the role 5.
const EDITION_2: &str = "
    00 0001 02                                                          | edition
    01 000a 01 fedcba9876543210 03                                      | style, seed, voice
    02 0004 c2980000                                                    | tempo
    03 0020 0001027f 1014171b 2024272b 3034373b                         | chords
            4044474b 5054575b 6064676b 7f7f7f7f
    04 0005 0b 00 02 02 07                                              | scale
    05 000f 07 80000000 7f 3f800000 bf800000 05                         | lead
    06 000f 00 00000001 00 7f7fffff ff7fffff 06                         | keys
    07 000a 03 03 807fffff 00800000                                     | hits
    08 000f 01 40490fdb 2a 00000000 3e800000 06                         | bass
    09 0006 00 00 04 00 00 01                                           | ends, phrases, dip
    0a 0020 000102030405060708090a0b0c0d0e0f                            | plays
            0f0f0f0f070707070101010100000000
";

/// Other bytes in the field of a tag, from a place on that counts from the tag, and the refusal in either edition; 0
/// where they make a sheet again.
const CHANGED: [(u8, usize, &[u8], i64); 64] = [
    // tags and lengths
    (0x01, 0, &[0x00], 7),
    (0x01, 0, &[0x02], 7),
    (0x01, 1, &[0x01], 7),
    (0x01, 2, &[0x09], 7),
    (0x01, 2, &[0x0b], 7),
    (0x02, 0, &[0x03], 7),
    (0x02, 2, &[0x05], 7),
    (0x03, 2, &[0x1f], 7),
    (0x04, 0, &[0x05], 7),
    (0x04, 2, &[0x04], 7),
    (0x04, 2, &[0x06], 7),
    (0x04, 2, &[0x07], 7),
    (0x05, 2, &[0x00], 7),
    (0x05, 2, &[0x0d], 7),
    (0x05, 1, &[0xff, 0xff], 7),
    (0x06, 0, &[0x05], 7),
    (0x07, 2, &[0x0e], 7),
    (0x08, 0, &[0x88], 7),
    (0x09, 2, &[0x05], 7),
    (0x0a, 0, &[0x0b], 7),
    (0x0a, 2, &[0x1f], 7),
    (0x0a, 2, &[0x22], 7),
    (0x0a, 1, &[0x01], 7),
    // style, seed, voice, tempo
    (0x01, 3, &[0x00], 0),
    (0x01, 3, &[0x02], 8),
    (0x01, 4, &[0xff; 8], 0),
    (0x01, 12, &[0x00], 0),
    (0x01, 12, &[0x04], 8),
    (0x02, 3, &[0x7f, 0x7f, 0xff, 0xff], 0),
    (0x02, 3, &[0x7f, 0x80, 0x00, 0x00], 8),
    (0x02, 3, &[0xff, 0x80, 0x00, 0x00], 8),
    (0x02, 3, &[0x7f, 0x80, 0x00, 0x01], 8),
    (0x02, 3, &[0xff, 0xff, 0xff, 0xff], 8),
    // chords and scale
    (0x03, 3, &[0x80], 8),
    (0x03, 34, &[0x80], 8),
    (0x04, 3, &[0x0c], 8),
    (0x04, 7, &[0x0b], 0),
    (0x04, 7, &[0x0c], 8),
    // lead, keys, hits, bass
    (0x05, 3, &[0x08], 8),
    (0x05, 4, &[0x7f, 0xc0, 0x00, 0x00], 8),
    (0x05, 8, &[0x80], 8),
    (0x05, 9, &[0x7f, 0x80], 8),
    (0x05, 13, &[0xff, 0x80], 8),
    (0x06, 13, &[0xff, 0xff], 8),
    (0x07, 3, &[0x08], 8),
    (0x07, 4, &[0x04], 8),
    (0x07, 5, &[0x7f, 0x80], 8),
    (0x07, 9, &[0x7f, 0xff], 8),
    (0x08, 3, &[0x08], 8),
    (0x08, 8, &[0x80], 8),
    (0x08, 13, &[0x7f, 0x80], 8),
    // ends, phrases, dip, plays; other ends and phrases also ask for other plays
    (0x09, 3, &[0x04, 0x02], 8),
    (0x09, 3, &[0x01], 8),
    (0x09, 4, &[0x04], 8),
    (0x09, 3, &[0x01, 0x04], 8),
    (0x09, 5, &[0x03], 8),
    (0x09, 5, &[0x05], 8),
    (0x09, 5, &[0x07], 8),
    (0x09, 6, &[0x05], 8),
    (0x09, 6, &[0x04, 0x02], 8),
    (0x09, 8, &[0x00], 0),
    (0x09, 8, &[0x02], 8),
    (0x0a, 3, &[0x10], 8),
    (0x0a, 34, &[0x8f], 8),
];

/// The place of the first note's role in the field of a lane.
const ROLE_AT: usize = 3 + 14;

/// The role of a lane's note in edition 2, and the refusal.
const ROLED: [(u8, u8, i64); 21] = [
    (0x05, 0, 0),
    (0x05, 1, 0),
    (0x05, 2, 0),
    (0x05, 3, 0),
    (0x05, 4, 0),
    (0x05, 6, 8),
    (0x05, 7, 8),
    (0x05, 128, 8),
    (0x05, 255, 8),
    (0x06, 0, 8),
    (0x06, 1, 8),
    (0x06, 4, 8),
    (0x06, 5, 8),
    (0x06, 7, 8),
    (0x06, 255, 8),
    (0x08, 0, 8),
    (0x08, 2, 8),
    (0x08, 3, 8),
    (0x08, 5, 8),
    (0x08, 7, 8),
    (0x08, 255, 8),
];

/// What stands before the field 0x01, and the refusal with the fields of edition 1 behind it and with those of 2.
const LED: [(&[u8], [i64; 2]); 17] = [
    (&[], [0, 7]),
    (&[0, 0, 1, 2], [7, 0]),
    (&[0, 0, 1, 0], [7, 7]),
    (&[0, 0, 1, 1], [7, 7]),
    (&[0, 0, 1, 3], [7, 7]),
    (&[0, 0, 1, 255], [7, 7]),
    // of other lengths
    (&[0, 0, 0], [7, 7]),
    (&[0, 0, 0, 2], [7, 7]),
    (&[0, 0, 2, 0, 2], [7, 7]),
    (&[0, 0, 2, 2, 2], [7, 7]),
    (&[0, 1, 0, 2], [7, 7]),
    (&[0, 1, 1, 2], [7, 7]),
    // twice, cut off, and by other tags
    (&[0, 0, 1, 2, 0, 0, 1, 2], [7, 7]),
    (&[0], [7, 7]),
    (&[0, 0, 1], [7, 7]),
    (&[1, 0, 1, 2], [7, 7]),
    (&[0x0b, 0, 1, 2], [7, 7]),
];

/// A field with so many zeros for its body, and the refusal in edition 1 and in 2, where a zero is no role of keys
/// and bass.
const RESIZED: [(u8, usize, [i64; 2]); 45] = [
    (0x01, 9, [7, 7]),
    (0x01, 10, [0, 0]),
    (0x01, 11, [7, 7]),
    (0x02, 0, [7, 7]),
    (0x02, 8, [7, 7]),
    (0x03, 28, [7, 7]),
    (0x03, 36, [7, 7]),
    (0x04, 4, [7, 7]),
    (0x04, 5, [0, 0]),
    (0x04, 6, [0, 0]),
    (0x04, 7, [7, 7]),
    (0x05, 0, [0, 0]),
    (0x05, 13, [7, 7]),
    (0x05, 14, [0, 7]),
    (0x05, 15, [7, 0]),
    // 15 notes of 14 bytes, or 14 of 15
    (0x05, 210, [0, 0]),
    (0x05, 784, [0, 7]),
    (0x05, 785, [7, 7]),
    (0x05, 798, [7, 7]),
    (0x05, 840, [7, 0]),
    (0x05, 841, [7, 7]),
    (0x05, 855, [7, 7]),
    (0x05, 3584, [7, 7]),
    (0x05, 3840, [7, 7]),
    (0x06, 10, [7, 7]),
    (0x06, 15, [7, 8]),
    (0x06, 1792, [0, 7]),
    (0x06, 1806, [7, 7]),
    (0x06, 1920, [7, 8]),
    (0x06, 1935, [7, 7]),
    (0x06, 65_534, [7, 7]),
    (0x07, 14, [7, 7]),
    (0x07, 15, [7, 7]),
    (0x07, 980, [0, 0]),
    (0x07, 990, [7, 7]),
    (0x08, 0, [0, 0]),
    (0x08, 1456, [0, 7]),
    // a note too many of 14 bytes, and 98 of 15
    (0x08, 1470, [7, 8]),
    (0x08, 1575, [7, 7]),
    (0x09, 5, [7, 7]),
    (0x09, 7, [7, 7]),
    (0x0a, 0, [7, 7]),
    (0x0a, 31, [7, 7]),
    (0x0a, 33, [7, 7]),
    (0x0a, 65_535, [7, 7]),
];

/// Other ends, phrases and dip, how many plays there are, and the refusal.
const SHAPED: [([u8; 6], usize, i64); 23] = [
    ([0, 0, 4, 4, 2, 0], 34, 0),
    ([2, 4, 5, 4, 2, 1], 46, 0),
    ([3, 8, 6, 3, 8, 1], 64, 0),
    ([1, 8, 6, 4, 2, 0], 58, 0),
    // endings whose bars don't fit
    ([0, 4, 4, 0, 0, 0], 36, 8),
    ([0, 0, 4, 0, 4, 0], 36, 8),
    ([1, 0, 4, 0, 0, 0], 32, 8),
    ([1, 2, 4, 0, 0, 0], 34, 8),
    ([0, 0, 4, 3, 2, 0], 34, 8),
    ([0, 0, 4, 4, 4, 0], 36, 8),
    // codes that are none, of an intro and of an outro
    ([4, 2, 4, 0, 0, 0], 34, 8),
    ([4, 4, 4, 0, 0, 0], 36, 8),
    ([0, 0, 4, 5, 4, 0], 36, 8),
    ([0, 0, 4, 5, 2, 0], 34, 8),
    // phrases
    ([1, 4, 3, 1, 4, 0], 32, 8),
    ([0, 0, 7, 0, 0, 0], 56, 8),
    // plays of other songs, and of none
    ([2, 4, 5, 4, 2, 1], 32, 8),
    ([2, 4, 5, 4, 2, 1], 48, 8),
    ([2, 4, 5, 4, 2, 1], 64, 8),
    ([2, 4, 5, 4, 2, 1], 45, 7),
    ([2, 4, 5, 4, 2, 1], 62, 7),
    ([2, 4, 5, 4, 2, 1], 66, 7),
    ([4, 8, 7, 5, 8, 2], 72, 7),
];

/// The sheet's bytes.
pub fn bytes(edition: Edition) -> Vec<u8> {
    let text = match edition {
        Edition::One => EDITION_1,
        Edition::Two => EDITION_2,
    };
    let lines = text.lines().filter_map(|line| line.split('|').next());
    let digits: Vec<u32> = (lines.flat_map(str::chars))
        .filter_map(|c| c.to_digit(16))
        .collect();
    let pairs = digits.chunks_exact(2);
    pairs.map(|pair| (pair[0] * 16 + pair[1]) as u8).collect()
}

/// The sheet with other bytes in a field.
pub fn changed(sheet: &[u8], tag: u8, at: usize, bytes: &[u8]) -> Vec<u8> {
    let mut from = 0;
    while sheet[from] != tag {
        from += 3 + usize::from(u16::from_be_bytes([sheet[from + 1], sheet[from + 2]]));
    }
    let mut sheet = sheet.to_vec();
    sheet[from + at..from + at + bytes.len()].copy_from_slice(bytes);
    sheet
}

/// What the driver's own reader says, 0 for a sheet.
fn said(sheet: &[u8]) -> i64 {
    judge(sheet).err().unwrap_or(0)
}

/// The sheet cut off, also behind a style that is none, and with bytes behind it.
fn assert_cut(sheet: &[u8]) {
    let bad = changed(sheet, 0x01, 3, &[2]);
    for len in 0..sheet.len() {
        let both = (said(&sheet[..len]), said(&bad[..len]));
        assert_eq!(both, (7, 7), "the first {len} bytes of {sheet:x?}");
    }
    for behind in [&[0][..], &[0, 0, 1, 2], &[0x0b, 0, 0], sheet] {
        let both = [sheet, &bad].map(|front| said(&[front, behind].concat()));
        assert_eq!(both, [7, 7], "{behind:x?} behind {sheet:x?}");
    }
}

/// The sheet with a field of other bytes, with another role, or led by something else.
fn assert_changed(edition: Edition, sheet: &[u8]) {
    for (tag, at, bytes, wanted) in CHANGED {
        let said = said(&changed(sheet, tag, at, bytes));
        assert_eq!(said, wanted, "{bytes:x?} from {at} on in {tag:#x}");
    }
    for (tag, role, wanted) in ROLED {
        if edition == Edition::Two {
            let said = said(&changed(sheet, tag, ROLE_AT, &[role]));
            assert_eq!(said, wanted, "the role {role} in {tag:#x}");
        }
    }
    let fields = &sheet[front(edition).len()..];
    for (led, wanted) in LED {
        let said = said(&[led, fields].concat());
        assert_eq!(said, wanted[edition as usize], "{led:?} before {fields:x?}");
    }
}

/// The sheet with other bodies.
fn assert_resized(edition: Edition, sheet: &Bodies) {
    for (tag, len, wanted) in RESIZED {
        let mut sheet = sheet.clone();
        sheet.set(tag, vec![0; len]);
        let (said, wanted) = (said(&sheet.bytes()), wanted[edition as usize]);
        assert_eq!(said, wanted, "{len} zeros in {tag:#x} of {edition:?}");
    }
    for (shape, bars, wanted) in SHAPED {
        let mut sheet = sheet.clone();
        sheet.set(0x09, shape.to_vec());
        sheet.set(0x0a, vec![15; bars]);
        let said = said(&sheet.bytes());
        assert_eq!(said, wanted, "{shape:?} and {bars} bars in {edition:?}");
    }
}

/// Stops the run where the driver's own reader says something else than is written here.
pub fn assert_judged() {
    for (edition, len) in EDITIONS.into_iter().zip([171, 178]) {
        let sheet = bytes(edition);
        let seen = (sheet.len(), said(&sheet), Bodies::of(&sheet).bytes());
        assert_eq!(seen, (len, 0, sheet.clone()), "the sheet by hand");
        assert_cut(&sheet);
        assert_changed(edition, &sheet);
        assert_resized(edition, &Bodies::of(&sheet));
    }
}
