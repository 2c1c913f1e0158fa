//! Sheets read back, of both editions: songs' own, and bytes and values that are no sheet's. sheet_values_tests.rs and
//! editions_tests.rs, which use the sheets that are made here, test what each byte means and in what the editions
//! differ.

use super::super::tests::{EDITIONS, in_edition_1, marked, songs};
use super::super::{raw, sheet_vec};
use super::*;

#[path = "editions_tests.rs"]
mod editions;
#[path = "sheet_values_tests.rs"]
mod values;

const SILENT: Plays = Plays {
    pad: false,
    keys: false,
    drums: false,
    bass: false,
};

const COLD: Ending = Ending {
    kind: EndingKind::Cold,
    bars: 0,
};

/// A note of the keys or the bass, and of every lane in edition 1.
const NOTE: Note = Note {
    bar: 7,
    time: f32::MAX,
    midi: 127,
    velocity: -0.0,
    duration: f32::MIN_POSITIVE / 2.0,
    role: Role::Backing,
};

const HIT: Hit = Hit {
    bar: 7,
    kind: Drum::OpenHat,
    time: -1.5,
    gain: f32::MIN,
};

/// A lead note of this edition.
fn lead(edition: Edition) -> Note {
    let role = match edition {
        Edition::One => Role::Backing,
        Edition::Two => Role::Passing,
    };
    Note { role, ..NOTE }
}

/// The shortest sheet: no events, and the fewest bars.
fn bare(edition: Edition) -> Sheet {
    Sheet {
        edition,
        style: Style::Hiphop,
        seed: 0,
        voice: Voice::EpVel,
        tempo: -0.0,
        chords: [[0; 4]; 8],
        scale: vec![0; 5],
        lead: vec![],
        keys: vec![],
        hits: vec![],
        bass: vec![],
        form: Form {
            intro: COLD,
            phrases: 4,
            outro: COLD,
            dip: false,
            bars: vec![SILENT; 32],
        },
    }
}

/// Where the ten fields that both editions have begin.
fn start(edition: Edition) -> usize {
    match edition {
        Edition::One => 0,
        Edition::Two => 4,
    }
}

/// The longest sheet: as many events and bars as there may be, the greatest numbers.
fn full(edition: Edition) -> Sheet {
    let long = Ending {
        kind: EndingKind::Filter,
        bars: 8,
    };
    Sheet {
        edition,
        style: Style::Sleep,
        seed: u64::MAX,
        voice: Voice::Vibraphone,
        tempo: f32::MAX,
        chords: [[127; 4]; 8],
        scale: vec![11; 6],
        lead: vec![lead(edition); 56],
        keys: vec![NOTE; 128],
        hits: vec![HIT; 98],
        bass: vec![NOTE; 104],
        form: Form {
            intro: long,
            phrases: 6,
            outro: long,
            dip: true,
            bars: vec![Plays::by(15); 64],
        },
    }
}

/// A bare sheet of this form, with the bars that its parts make.
fn formed(intro: Ending, phrases: u8, outro: Ending) -> Sheet {
    let bars = usize::from(intro.bars + 8 * phrases + outro.bars);
    let mut sheet = bare(Edition::Two);
    sheet.form = Form {
        intro,
        phrases,
        outro,
        dip: true,
        bars: (0..bars).map(|bar| Plays::by(bar as u8 % 16)).collect(),
    };
    sheet
}

/// Each ending that an intro or an outro may have; the last is an outro's alone.
fn endings() -> Vec<Ending> {
    let kinds = [EndingKind::Plain, EndingKind::Fade, EndingKind::Filter];
    let long = kinds.map(|kind| [4, 8].map(|bars| Ending { kind, bars }));
    let rings_out = Ending {
        kind: EndingKind::RingsOut,
        bars: 2,
    };
    [&[COLD], long.as_flattened(), &[rings_out]].concat()
}

/// The bytes of `sheet` with one of them changed; its place is counted from the ten fields' first byte on.
fn with(sheet: &Sheet, place: usize, byte: u8) -> Vec<u8> {
    let mut bytes = sheet.laid_out();
    bytes[start(sheet.edition) + place] = byte;
    bytes
}

/// These bytes are refused so, whatever the buffer, which keeps its own.
fn refused(bytes: &[u8], refusal: Refusal) {
    for room in [0, bytes.len().saturating_sub(1), bytes.len(), SHEET_MOST] {
        let mut buf = marked(room);
        assert_eq!(reread(bytes, &mut buf), Err(refusal), "{bytes:?}");
        assert_eq!(buf, marked(room));
    }
    assert_eq!(Sheet::parse(bytes), Err(refusal));
}

/// No sheet has this value: it is not written, and the bytes that it would have are refused so.
fn unwritten(sheet: &Sheet, refusal: Refusal) {
    assert_eq!(sheet.to_bytes(), Err(Refusal::Malformed), "{sheet:?}");
    refused(&sheet.laid_out(), refusal);
}

/// A bare sheet of either edition with this change is not written, and its bytes are refused so.
fn refused_with(refusal: Refusal, change: impl Fn(&mut Sheet)) {
    for edition in EDITIONS {
        let mut sheet = bare(edition);
        change(&mut sheet);
        unwritten(&sheet, refusal);
    }
}

#[test]
fn the_sheet_of_a_song_is_read_and_laid_out_again() {
    let more = (0..100).flat_map(|seed| [(Style::Hiphop, seed), (Style::Sleep, seed)]);
    for (style, seed) in songs().chain(more) {
        let bytes = sheet_vec(style, seed);
        let sheet = Sheet::parse(&bytes).unwrap();
        assert_eq!(sheet.edition, Edition::Two);
        assert_eq!((sheet.style, sheet.seed), (style, seed));
        assert_eq!(sheet.to_bytes(), Ok(bytes));
    }
}

#[test]
fn a_sheet_is_written_into_every_buffer_with_room() {
    let songs = songs().map(|(style, seed)| sheet_vec(style, seed));
    let made = EDITIONS.map(|edition| [bare(edition).laid_out(), full(edition).laid_out()]);
    for bytes in songs.chain(made.into_iter().flatten()) {
        let len = bytes.len();
        for room in [len, len + 1, SHEET_MOST + 9] {
            let mut buf = marked(room);
            assert_eq!(reread(&bytes, &mut buf), Ok(len));
            assert_eq!(buf[..len], bytes);
            assert_eq!(buf[len..], marked(room)[len..]);
        }
        for room in [len - 1, 1, 0] {
            let mut buf = marked(room);
            assert_eq!(reread(&bytes, &mut buf), Err(Refusal::ShortBuffer));
            assert_eq!(buf, marked(room));
        }
    }
}

#[test]
fn a_fault_in_the_fields_is_refused() {
    let fields = Refusal::SheetFields;
    for edition in EDITIONS {
        let bytes = bare(edition).laid_out();
        for len in 0..bytes.len() {
            refused(&bytes[..len], fields);
        }
        for more in [1, 3, 4, bytes.len(), SHEET_MOST, 70000] {
            refused(&[&bytes[..], &vec![0; more]].concat(), fields);
        }
        // where the ten heads stand in a bare sheet; a tag or a length that is another's, by each bit
        for place in [0, 13, 20, 55, 63, 66, 69, 72, 75, 84] {
            for head in [place, place + 1, place + 2] {
                for bit in 0..8 {
                    let byte = bytes[start(edition) + head] ^ 1 << bit;
                    refused(&with(&bare(edition), head, byte), fields);
                }
            }
        }
    }
}

#[test]
fn a_field_that_is_misplaced_is_refused() {
    let fields = Refusal::SheetFields;
    for edition in EDITIONS {
        let bytes = bare(edition).laid_out();
        let (before, rest) = bytes.split_at(start(edition) + 66);
        let (keys, rest) = rest.split_at(3);
        let (hits, after) = rest.split_at(3);
        refused(&[before, hits, keys, after].concat(), fields);
        refused(&[before, keys, after].concat(), fields);
        refused(&[before, keys, keys, hits, after].concat(), fields);
    }
}

#[test]
fn a_list_of_a_length_that_no_sheet_has_is_refused() {
    let fields = Refusal::SheetFields;
    // 65,541 is 5 modulo 2^16, and so are the bytes of 65,536 notes 0
    for entries in [0, 4, 7, 65_541] {
        refused_with(fields, |s| s.scale = vec![0; entries]);
    }
    refused_with(fields, |s| s.lead = vec![lead(s.edition); 57]);
    refused_with(fields, |s| s.lead = vec![lead(s.edition); 65_536]);
    refused_with(fields, |s| s.keys = vec![NOTE; 129]);
    refused_with(fields, |s| s.hits = vec![HIT; 99]);
    refused_with(fields, |s| s.bass = vec![NOTE; 105]);
    for bars in [0, 31, 33, 62, 63, 66, 65_568] {
        refused_with(fields, |s| s.form.bars = vec![SILENT; bars]);
    }
}

#[test]
fn a_value_out_of_range_is_refused() {
    let values = Refusal::SheetValues;
    for odd in [f32::NAN, f32::INFINITY, f32::NEG_INFINITY] {
        refused_with(values, |s| s.tempo = odd);
        let (time, velocity, duration) = (odd, odd, odd);
        refused_with(values, |s| {
            let note = lead(s.edition);
            s.lead = vec![Note { time, ..note }];
        });
        refused_with(values, |s| s.keys = vec![Note { velocity, ..NOTE }]);
        refused_with(values, |s| s.bass = vec![NOTE, Note { duration, ..NOTE }]);
        refused_with(values, |s| s.hits = vec![Hit { time, ..HIT }]);
        refused_with(values, |s| s.hits = vec![HIT, Hit { gain: odd, ..HIT }]);
    }
    refused_with(values, |s| s.chords[7][3] = 128);
    refused_with(values, |s| s.scale[4] = 12);
    refused_with(values, |s| s.scale.push(12));
    refused_with(values, |s| {
        let note = lead(s.edition);
        s.lead = vec![Note { bar: 8, ..note }];
    });
    refused_with(values, |s| s.bass = vec![Note { midi: 128, ..NOTE }]);
    refused_with(values, |s| s.hits = vec![Hit { bar: 8, ..HIT }]);
}

#[test]
fn a_code_that_the_types_have_not_is_refused() {
    let values = Refusal::SheetValues;
    // of style, voice, endings, dip and a bar's plays
    let codes = [
        (3, 2),
        (12, 4),
        (78, 5),
        (81, 5),
        (83, 2),
        (87, 16),
        (118, 255),
    ];
    for edition in EDITIONS {
        let hit = Sheet {
            hits: vec![HIT],
            ..bare(edition)
        };
        refused(&with(&hit, 73, 4), values);
        for (place, code) in codes {
            refused(&with(&bare(edition), place, code), values);
        }
    }
}

#[test]
fn bars_that_the_form_does_not_make_are_refused() {
    let values = Refusal::SheetValues;
    refused_with(values, |s| s.form.bars = vec![SILENT; 40]);
    refused_with(values, |s| s.form.phrases = 5);
    // as many bars as some song has, but of other phrases
    let fade = Ending {
        kind: EndingKind::Fade,
        bars: 8,
    };
    for sheet in [formed(fade, 3, fade), formed(COLD, 7, fade)] {
        unwritten(&sheet, values);
    }
    for kind in ENDINGS {
        for bars in [0, 1, 2, 4, 6, 8] {
            let ending = Ending { kind, bars };
            let fits = endings().contains(&ending);
            if !fits {
                let mut sheet = formed(COLD, 4, ending);
                // an odd number of bars would be a fault in the fields
                sheet.form.bars.resize(32 + usize::from(bars & !1), SILENT);
                unwritten(&sheet, values);
            }
            if !fits || kind == EndingKind::RingsOut {
                let mut sheet = formed(ending, 4, COLD);
                sheet.form.bars.resize(32 + usize::from(bars & !1), SILENT);
                unwritten(&sheet, values);
            }
        }
    }
}

#[test]
fn a_fault_in_the_fields_comes_before_a_value_and_that_before_a_short_buffer() {
    for edition in EDITIONS {
        // the first value is bad and the last byte is cut off, or one follows it
        let mut bytes = with(&bare(edition), 3, 2);
        refused(&bytes, Refusal::SheetValues);
        refused(&bytes[..bytes.len() - 1], Refusal::SheetFields);
        bytes.push(0);
        refused(&bytes, Refusal::SheetFields);
    }
}

#[test]
fn the_c_function_has_the_numbers_of_the_documents() {
    let mut buf = marked(SHEET_MOST);
    let mut answer = |sheet: &[u8], len: usize| unsafe {
        raw::seqochanu_reread(sheet.as_ptr(), sheet.len(), buf.as_mut_ptr(), len)
    };
    assert_eq!(answer(&[], 0), -7);
    for (edition, len) in [(Edition::One, 119), (Edition::Two, 123)] {
        let bytes = bare(edition).laid_out();
        assert_eq!(answer(&bytes[..len - 1], len), -7);
        assert_eq!(answer(&with(&bare(edition), 3, 2), len), -8);
        assert_eq!(answer(&bytes, len - 1), -2);
        assert_eq!(answer(&bytes, len), len as i64);
    }
}
