//! The sheet of one song and its changes, byte by byte by hand: what the driver itself must say of them, so that it
//! can't agree with anything whatever.

use super::Song;
use crate::edition::{EDITIONS, Edition};
use crate::reread::by_hand::{bytes, changed};
use crate::reread::sheets::Bodies;

/// How long the sheets of seed 0 in hiphop are.
const LENGTHS: [usize; 2] = [2110, 2193];

/// Other bytes in the field of a tag, from a place on that counts from the tag, and the refusal in either edition.
const CHANGED: [(u8, usize, &[u8], i64); 55] = [
    // style, seed, voice, tempo
    (0x01, 2, &[0x09], 7),
    (0x01, 3, &[0x01], 9),
    (0x01, 3, &[0x02], 8),
    (0x01, 4, &[0x80], 9),
    (0x01, 11, &[0x01], 9),
    (0x01, 12, &[0x01], 9),
    (0x01, 12, &[0x04], 8),
    (0x02, 3, &[0xc2], 9),
    (0x02, 3, &[0x7f, 0x80], 8),
    (0x02, 6, &[0x01], 9),
    // chords and scale
    (0x03, 3, &[0x34], 9),
    (0x03, 34, &[0x42], 9),
    (0x03, 34, &[0x80], 8),
    (0x04, 0, &[0x05], 7),
    (0x04, 3, &[0x0b], 9),
    (0x04, 8, &[0x08], 9),
    (0x04, 8, &[0x0c], 8),
    // lead
    (0x05, 2, &[0x00], 7),
    (0x05, 3, &[0x01], 9),
    (0x05, 3, &[0x08], 8),
    (0x05, 4, &[0xbe], 9),
    (0x05, 7, &[0x02], 9),
    (0x05, 8, &[0x47], 9),
    (0x05, 12, &[0x0a], 9),
    (0x05, 16, &[0x01], 9),
    // keys
    (0x06, 3, &[0x07], 9),
    (0x06, 7, &[0xdd], 9),
    (0x06, 8, &[0x38], 9),
    (0x06, 9, &[0xbf], 9),
    (0x06, 9, &[0x7f, 0xff], 8),
    (0x06, 16, &[0x67], 9),
    // hits
    (0x07, 3, &[0x01], 9),
    (0x07, 4, &[0x01], 9),
    (0x07, 4, &[0x04], 8),
    (0x07, 5, &[0xbc], 9),
    (0x07, 12, &[0x17], 9),
    // the time of its fifth is zero, and becomes a negative zero
    (0x07, 45, &[0x80], 9),
    // bass
    (0x08, 3, &[0x01], 9),
    (0x08, 7, &[0xef], 9),
    (0x08, 8, &[0x26], 9),
    (0x08, 8, &[0x80], 8),
    (0x08, 12, &[0xd3], 9),
    (0x08, 13, &[0xc0], 9),
    // ends, phrases, dip, plays
    (0x09, 3, &[0x02], 9),
    (0x09, 3, &[0x03], 9),
    (0x09, 3, &[0x00], 8),
    (0x09, 5, &[0x04], 8),
    (0x09, 6, &[0x01], 8),
    (0x09, 8, &[0x00], 9),
    (0x09, 8, &[0x02], 8),
    (0x0a, 2, &[0x30], 7),
    (0x0a, 3, &[0x0f], 9),
    (0x0a, 3, &[0x1d], 8),
    (0x0a, 48, &[0x01], 9),
    (0x0a, 48, &[0x80], 8),
];

/// The role at a place in the field of a lane in edition 2, and the refusal.
const ROLED: [(u8, usize, u8, i64); 11] = [
    (0x05, 17, 0, 9),
    (0x05, 17, 1, 9),
    (0x05, 17, 2, 9),
    (0x05, 17, 3, 9),
    (0x05, 17, 4, 9),
    (0x05, 17, 6, 8),
    // the last lead note's
    (0x05, 392, 0, 9),
    (0x05, 392, 5, 9),
    (0x05, 392, 255, 8),
    (0x06, 17, 5, 8),
    (0x08, 17, 0, 8),
];

/// Stops the run where the driver says of bytes something else than the refusal, whichever edition is wanted.
fn assert_refused(song: &Song, bytes: &[u8], number: i64) {
    for wanted in EDITIONS {
        let said = song.converted(bytes, wanted);
        assert_eq!(said, Err(number), "{bytes:x?}, converted to {wanted:?}");
    }
}

/// The sheet of edition 2 with its roles dropped: the last byte of every note.
fn dropped(sheet: &[u8]) -> Vec<u8> {
    let mut sheet = Bodies::of(sheet);
    sheet.edition = Edition::One;
    for tag in [0x05, 0x06, 0x08] {
        let notes = sheet.body(tag).chunks(15);
        let body = notes.flat_map(|note| note[..14].to_vec()).collect();
        sheet.set(tag, body);
    }
    sheet.bytes()
}

/// Both sheets of the song, each converted to both editions.
fn assert_both(song: &Song) {
    let [one, two] = EDITIONS.map(|edition| song.sheet(edition));
    assert_eq!([one.len(), two.len()], LENGTHS, "the lengths by hand");
    assert_eq!(one, dropped(two), "edition 1 is edition 2 with no roles");
    for sheet in [one, two] {
        assert_eq!(song.converted(sheet, Edition::One).as_deref(), Ok(one));
        assert_eq!(song.converted(sheet, Edition::Two).as_deref(), Ok(two));
    }
}

/// The sheet with other bytes: alone, with a dip that is not the seed's, with a class out of range, and cut off.
fn assert_changed(song: &Song, sheet: &[u8]) {
    let dip = changed(sheet, 0x09, 8, &[0x00]);
    let class = changed(sheet, 0x04, 4, &[0x0c]);
    for (tag, at, bytes, number) in CHANGED {
        let [alone, with_dip, with_class] =
            [sheet, &dip, &class].map(|sheet| changed(sheet, tag, at, bytes));
        assert_refused(song, &alone, number);
        assert_refused(song, &with_dip, number);
        // 7 comes before 8, and 8 before 9
        assert_refused(song, &with_class, number.min(8));
        assert_refused(song, &alone[..alone.len() - 1], 7);
    }
}

/// What the song's sheets are not: cut off, followed by something, led by the other edition's name, and a sheet that
/// names a seed and was never composed.
fn assert_others(song: &Song) {
    let [one, two] = EDITIONS.map(|edition| song.sheet(edition));
    for sheet in [one, two] {
        assert_refused(song, &sheet[..sheet.len() - 1], 7);
        assert_refused(song, &[sheet, &[0]].concat(), 7);
        assert_refused(song, &[one, sheet].concat(), 7);
    }
    assert_refused(song, &[], 7);
    assert_refused(song, &two[4..], 7);
    assert_refused(song, &[&[0, 0, 1, 2], one].concat(), 7);
    for (tag, at, role, number) in ROLED {
        assert_refused(song, &changed(two, tag, at, &[role]), number);
    }
    for edition in EDITIONS {
        assert_refused(song, &bytes(edition), 9);
    }
}

/// The first song's sheets, where the second is at hand, so that the one that they name has to be composed.
fn assert_named(songs: [&Song; 2]) {
    let [song, at_hand] = songs;
    for (edition, wanted) in EDITIONS.into_iter().flat_map(|e| EDITIONS.map(|w| (e, w))) {
        let said = at_hand.converted(song.sheet(edition), wanted);
        assert_eq!(said.as_deref(), Ok(song.sheet(wanted)), "{wanted:?}");
    }
}

/// Stops the run where the driver says something else than is written here.
pub fn assert_converted() {
    let song = Song::of(0, 0);
    assert_both(&song);
    assert_others(&song);
    for edition in EDITIONS {
        assert_changed(&song, song.sheet(edition));
    }
    let other = Song::of(1, 0xfedc_ba98_7654_3210);
    assert_named([&song, &other]);
    assert_named([&other, &song]);
}
