//! Sheets turned into either edition: those of songs, which are turned, and all others, which are refused.

use super::tests::{EDITIONS, in_edition_1, marked, songs};
use super::*;

/// A song's sheet in both editions, in the order of `EDITIONS`.
fn both(style: Style, seed: u64) -> [Vec<u8>; 2] {
    let second = sheet_vec(style, seed);
    [in_edition_1(&second), second]
}

/// The bytes of `sheet` with one of them changed; its place is counted from the field 0x01 on.
fn with(sheet: &[u8], place: usize, byte: u8) -> Vec<u8> {
    let mut bytes = sheet.to_vec();
    bytes[Edition::of(sheet).opening().len() + place] = byte;
    bytes
}

/// These bytes are refused so, whichever edition is wanted and whatever the buffer, which keeps its own.
fn refused(sheet: &[u8], refusal: Refusal) {
    for wanted in EDITIONS {
        for room in [0, 1, sheet.len(), SHEET_MOST + 9] {
            let mut buf = marked(room);
            let answer = convert(sheet, wanted, &mut buf);
            assert_eq!(answer, Err(refusal), "into {wanted:?}: {sheet:?}");
            assert_eq!(buf, marked(room));
        }
        assert_eq!(convert_vec(sheet, wanted), Err(refusal));
    }
}

/// A song's sheet with this change is a sheet still, but not the song's: so it is refused. One that is in the wanted
/// edition already is refused too, and not copied unseen.
fn other_song(change: impl Fn(&mut Sheet)) {
    for (style, seed) in songs() {
        for bytes in both(style, seed) {
            let mut sheet = Sheet::parse(&bytes).unwrap();
            change(&mut sheet);
            let changed = sheet.to_bytes().expect("each value is in its range");
            assert_ne!(changed, bytes);
            refused(&changed, Refusal::OtherSong);
        }
    }
}

/// The number beside this one: another in its last bit.
fn beside(number: f32) -> f32 {
    f32::from_bits(number.to_bits() ^ 1)
}

#[test]
fn a_songs_sheet_is_turned_into_either_edition_and_back() {
    let more = (0..100).flat_map(|seed| [(Style::Hiphop, seed), (Style::Sleep, seed)]);
    for (style, seed) in songs().chain(more) {
        let both = both(style, seed);
        for given in &both {
            for (wanted, due) in EDITIONS.into_iter().zip(&both) {
                // one that is in the wanted edition already is copied
                let turned = convert_vec(given, wanted).unwrap();
                assert_eq!(turned, *due);
                assert_eq!(convert_vec(&turned, Edition::of(given)).unwrap(), *given);
            }
        }
    }
}

#[test]
fn edition_1_has_what_stands_on_the_sheet_but_its_roles() {
    for (style, seed) in songs() {
        let bytes = sheet_vec(style, seed);
        let mut sheet = Sheet::parse(&bytes).unwrap();
        sheet.edition = Edition::One;
        for note in &mut sheet.lead {
            note.role = Role::Backing;
        }
        assert_eq!(convert_vec(&bytes, Edition::One), sheet.to_bytes());
    }
}

#[test]
fn a_sheet_is_written_into_every_buffer_with_room() {
    for (style, seed) in songs() {
        let both = both(style, seed);
        for (wanted, due) in EDITIONS.into_iter().zip(&both) {
            let len = due.len();
            // what counts is how long the sheet in the wanted edition is, not the one that is given
            for given in &both {
                for room in [len, len + 1, SHEET_MOST + 9] {
                    let mut buf = marked(room);
                    assert_eq!(convert(given, wanted, &mut buf), Ok(len));
                    assert_eq!(buf[..len], due[..]);
                    assert_eq!(buf[len..], marked(room)[len..]);
                }
                for room in [len - 1, 1, 0] {
                    let mut buf = marked(room);
                    let answer = convert(given, wanted, &mut buf);
                    assert_eq!(answer, Err(Refusal::ShortBuffer));
                    assert_eq!(buf, marked(room));
                }
            }
        }
    }
}

#[test]
fn another_name_than_the_songs_is_refused() {
    other_song(|s| s.seed ^= 1);
    other_song(|s| s.seed ^= 1 << 63);
    other_song(|s| {
        s.style = match s.style {
            Style::Hiphop => Style::Sleep,
            Style::Sleep => Style::Hiphop,
        }
    });
}

#[test]
fn another_score_than_the_songs_is_refused() {
    other_song(|s| {
        s.voice = match s.voice {
            Voice::Kalimba => Voice::Pluck,
            _ => Voice::Kalimba,
        }
    });
    other_song(|s| s.tempo = beside(s.tempo));
    other_song(|s| s.chords[0][0] ^= 1);
    other_song(|s| s.chords[7][3] ^= 1);
    other_song(|s| s.lead[0].time = beside(s.lead[0].time));
    other_song(|s| s.lead[0].midi ^= 1);
    other_song(|s| s.keys[0].velocity = beside(s.keys[0].velocity));
    other_song(|s| s.keys[0].bar ^= 1);
    other_song(|s| s.bass[0].duration = beside(s.bass[0].duration));
    other_song(|s| s.hits[0].gain = beside(s.hits[0].gain));
    other_song(|s| {
        s.hits[0].kind = match s.hits[0].kind {
            Drum::Snare => Drum::Kick,
            _ => Drum::Snare,
        }
    });
}

#[test]
fn more_or_fewer_events_than_the_songs_or_in_another_order_are_refused() {
    other_song(|s| s.lead.clear());
    other_song(|s| s.keys.truncate(s.keys.len() - 1));
    other_song(|s| s.bass.push(s.bass[0]));
    other_song(|s| s.hits.truncate(s.hits.len() - 1));
    other_song(|s| s.hits.push(s.hits[0]));
    other_song(|s| s.hits.swap(0, 1));
    other_song(|s| s.hits.clear());
}

#[test]
fn another_scale_or_form_than_the_songs_is_refused() {
    other_song(|s| s.scale[0] = (s.scale[0] + 1) % 12);
    other_song(|s| s.scale.swap(3, 4));
    other_song(|s| match s.scale.len() {
        5 => s.scale.push(0),
        _ => s.scale.truncate(5),
    });
    other_song(|s| s.form.dip = !s.form.dip);
    other_song(|s| s.form.bars[0].pad = !s.form.bars[0].pad);
    other_song(|s| {
        let bass = &mut s.form.bars.last_mut().expect("a song has bars").bass;
        *bass = !*bass;
    });
    other_song(|s| {
        let kind = &mut s.form.intro.kind;
        // of as many bars, since none of these songs begins cold
        *kind = match *kind {
            EndingKind::Fade => EndingKind::Plain,
            _ => EndingKind::Fade,
        }
    });
    other_song(|s| {
        let before = s.form.intro.bars.into();
        s.form.phrases += 1;
        let phrase = s.form.bars[before..][..8].to_vec();
        s.form.bars.splice(before..before, phrase);
    });
}

#[test]
fn another_role_than_the_songs_is_refused() {
    let roles = [
        Role::Quote,
        Role::Close,
        Role::Peak,
        Role::Resolve,
        Role::ChordTone,
        Role::Passing,
    ];
    for (style, seed) in songs() {
        let song = Sheet::parse(&sheet_vec(style, seed)).unwrap();
        for (i, note) in song.lead.iter().enumerate() {
            for role in roles.into_iter().filter(|role| *role != note.role) {
                let mut other = song.clone();
                other.lead[i].role = role;
                // also where edition 1 is wanted, though it would not have the role
                refused(&other.to_bytes().unwrap(), Refusal::OtherSong);
            }
        }
    }
}

#[test]
fn a_negative_zero_in_a_zeros_place_is_refused() {
    for bytes in both(Style::Hiphop, 0) {
        let song = Sheet::parse(&bytes).unwrap();
        let mut other = song.clone();
        let mut hits = other.hits.iter_mut();
        let hat = hits.find(|hit| hit.time == 0.0);
        hat.expect("one is held at the loop's start").time = -0.0;
        assert_eq!(other, song);
        refused(&other.to_bytes().unwrap(), Refusal::OtherSong);
    }
}

#[test]
fn every_byte_of_a_sheet_counts() {
    for (style, seed) in [(Style::Hiphop, 1234567), (Style::Sleep, 2350)] {
        for bytes in both(style, seed) {
            for place in 0..bytes.len() {
                let mut changed = bytes.clone();
                changed[place] ^= 1;
                // with no room, a short buffer says that the reader has nothing against it
                let refusal = match reread(&changed, &mut []) {
                    Err(Refusal::ShortBuffer) => Refusal::OtherSong,
                    read => read.unwrap_err(),
                };
                for wanted in EDITIONS {
                    let answer = convert_vec(&changed, wanted);
                    assert_eq!(answer, Err(refusal), "byte {place} into {wanted:?}");
                }
            }
        }
    }
}

#[test]
fn what_the_reader_refuses_is_refused_so_though_it_is_another_songs_too() {
    for (style, seed) in songs() {
        for song in both(style, seed) {
            // its voice is another, within the range
            let other = with(&song, 12, 2);
            assert_eq!(reread(&other, &mut []), Err(Refusal::ShortBuffer));
            for sheet in [song, other] {
                let (last, before) = sheet.split_last().expect("a sheet has bytes");
                // the style is none, or a layer plays that no song has
                let styled = with(&sheet, 3, 2);
                let layered = [before, &[last | 16]].concat();
                for values in [styled, layered] {
                    refused(&values, Refusal::SheetValues);
                    refused(&values[..before.len()], Refusal::SheetFields);
                    refused(&[&values[..], &[0]].concat(), Refusal::SheetFields);
                }
                refused(before, Refusal::SheetFields);
                refused(&sheet[1..], Refusal::SheetFields);
                refused(&sheet.repeat(2), Refusal::SheetFields);
            }
        }
    }
    refused(&[], Refusal::SheetFields);
    refused(&[0; 70000], Refusal::SheetFields);
}

#[test]
fn the_c_functions_have_the_numbers_of_the_documents() {
    let mut buf = marked(SHEET_MOST);
    let mut answers = |sheet: &[u8], len: usize| {
        let (bytes, buf) = (sheet.as_ptr(), buf.as_mut_ptr());
        unsafe {
            [
                raw::seqochanu_to_edition_1(bytes, sheet.len(), buf, len),
                raw::seqochanu_to_edition_2(bytes, sheet.len(), buf, len),
            ]
        }
    };
    for sheet in both(Style::Sleep, 2350) {
        assert_eq!(answers(&sheet[1..], 0), [-7; 2]);
        assert_eq!(answers(&with(&sheet, 3, 2), 0), [-8; 2]);
        assert_eq!(answers(&with(&sheet, 12, 3), 0), [-9; 2]);
        assert_eq!(answers(&sheet, 1003), [-2; 2]);
        assert_eq!(answers(&sheet, 1004), [1004, -2]);
        assert_eq!(answers(&sheet, 1035), [1004, 1035]);
    }
}
