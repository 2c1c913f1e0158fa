//! What each byte of a sheet means, by docs/FORMAT.md, and values made by hand.
//!
//! A value that is laid out and read again shows nothing of two codes that are swapped both ways. So the codes are put
//! as literal bytes, and what is read is compared by its name.

use super::*;

// Where codes stand in what `literal` gives; a note's is its role.
const STYLE: usize = 7;
const VOICE: usize = 16;
const LEAD: usize = 84;
const KEYS: usize = 102;
const KIND: usize = 107;
const BASS: usize = 133;
const PLAYS: usize = 146;

/// A note of this role: bar 1, 1.0 s, C4, velocity 0.5, for 2.0 s.
fn note(role: u8) -> [u8; 15] {
    [1, 0x3f, 0x80, 0, 0, 60, 0x3f, 0, 0, 0, 0x40, 0, 0, 0, role]
}

/// The bytes of a sheet with one note in each lane and one hit, with this field 0x09 and as many bars as it makes, in
/// which all layers play. None of the code that is tested lays them out.
fn literal(form: [u8; 6]) -> Vec<u8> {
    let [_, intro, phrases, _, outro, _] = form;
    let bars = intro + 8 * phrases + outro;
    [
        &[0, 0, 1, 2][..],
        &[1, 0, 10, 0, 0, 0, 0, 0, 0, 0, 0, 0, 0],
        &[2, 0, 4, 0x42, 0x98, 0, 0],
        &[3, 0, 32],
        &[60; 32],
        &[4, 0, 5, 0, 2, 4, 7, 9],
        &[5, 0, 15],
        &note(0),
        &[6, 0, 15],
        &note(6),
        &[7, 0, 10, 0, 0, 0, 0, 0, 0, 0x3f, 0x80, 0, 0],
        &[8, 0, 15],
        &note(6),
        &[9, 0, 6],
        &form,
        &[10, 0, bars],
        &vec![15; bars.into()],
    ]
    .concat()
}

/// What stands on a sheet of these bytes; it is laid out in them again.
fn both_ways(bytes: &[u8]) -> Sheet {
    let sheet = Sheet::parse(bytes).unwrap();
    assert_eq!(sheet.to_bytes().unwrap(), bytes);
    sheet
}

/// What stands on a sheet with this code at this place.
fn coded(place: usize, code: u8) -> Sheet {
    let mut bytes = literal([0, 0, 4, 0, 0, 0]);
    bytes[place] = code;
    both_ways(&bytes)
}

#[test]
fn styles_and_voices_have_their_codes() {
    for (code, style) in [(0, Style::Hiphop), (1, Style::Sleep)] {
        assert_eq!(coded(STYLE, code).style, style);
    }
    let voices = [
        (0, Voice::EpVel),
        (1, Voice::Pluck),
        (2, Voice::Kalimba),
        (3, Voice::Vibraphone),
    ];
    for (code, voice) in voices {
        assert_eq!(coded(VOICE, code).voice, voice);
    }
}

#[test]
fn kinds_of_drum_have_their_codes() {
    let kinds = [
        (0, Drum::Kick),
        (1, Drum::Snare),
        (2, Drum::Hat),
        (3, Drum::OpenHat),
    ];
    for (code, kind) in kinds {
        let hits = coded(KIND, code).hits;
        let kinds: Vec<Drum> = hits.iter().map(|hit| hit.kind).collect();
        assert_eq!(kinds, [kind]);
    }
}

#[test]
fn roles_have_their_codes() {
    let roles = [
        (0, Role::Quote),
        (1, Role::Close),
        (2, Role::Peak),
        (3, Role::Resolve),
        (4, Role::ChordTone),
        (5, Role::Passing),
    ];
    for (code, role) in roles {
        let sheet = coded(LEAD, code);
        let lanes = [sheet.lead, sheet.keys, sheet.bass].map(|lane| lane[0].role);
        assert_eq!(lanes, [role, Role::Backing, Role::Backing]);
    }
}

#[test]
fn a_role_that_its_lane_has_not_is_refused() {
    let bytes = literal([0, 0, 4, 0, 0, 0]);
    for (place, codes) in [
        (LEAD, &[6, 7, 8, 255][..]),
        (KEYS, &[0, 5, 7, 255]),
        (BASS, &[0, 5, 7, 255]),
    ] {
        for &code in codes {
            let mut bytes = bytes.clone();
            bytes[place] = code;
            refused(&bytes, Refusal::SheetValues);
            // and only then: with the last byte cut off the fields are at fault
            refused(&bytes[..bytes.len() - 1], Refusal::SheetFields);
        }
    }
}

#[test]
fn a_note_has_its_numbers() {
    let note = Note {
        bar: 1,
        time: 1.0,
        midi: 60,
        velocity: 0.5,
        duration: 2.0,
        role: Role::Backing,
    };
    let sheet = coded(LEAD, 3);
    let role = Role::Resolve;
    assert_eq!(sheet.lead, [Note { role, ..note }]);
    assert_eq!((sheet.keys, sheet.bass), (vec![note], vec![note]));
}

#[test]
fn endings_have_their_codes() {
    let endings = [
        (0, 0, EndingKind::Cold),
        (1, 4, EndingKind::Plain),
        (1, 8, EndingKind::Plain),
        (2, 4, EndingKind::Fade),
        (2, 8, EndingKind::Fade),
        (3, 4, EndingKind::Filter),
        (3, 8, EndingKind::Filter),
        (4, 2, EndingKind::RingsOut),
    ];
    for (code, bars, kind) in endings {
        let ending = Ending { kind, bars };
        let form = both_ways(&literal([0, 0, 4, code, bars, 0])).form;
        assert_eq!((form.intro, form.outro), (COLD, ending));
        // no intro rings out
        if code != 4 {
            let form = both_ways(&literal([code, bars, 4, 0, 0, 0])).form;
            assert_eq!((form.intro, form.outro), (ending, COLD));
        }
    }
}

#[test]
fn phrases_and_the_dip_have_their_bytes() {
    for phrases in 4..=6 {
        for (code, dip) in [(0, false), (1, true)] {
            let form = both_ways(&literal([0, 0, phrases, 0, 0, code])).form;
            assert_eq!((form.phrases, form.dip), (phrases, dip));
        }
    }
}

#[test]
fn layers_have_their_bits() {
    // pad, keys, drums, bass
    let layers = [
        (0, [false; 4]),
        (1, [true, false, false, false]),
        (2, [false, true, false, false]),
        (4, [false, false, true, false]),
        (8, [false, false, false, true]),
        (15, [true; 4]),
    ];
    for (bits, playing) in layers {
        let Plays {
            pad,
            keys,
            drums,
            bass,
        } = coded(PLAYS, bits).form.bars[0];
        assert_eq!([pad, keys, drums, bass], playing, "{bits}");
    }
}

/// The sheet that docs/EXAMPLE.md takes apart.
fn example() -> Sheet {
    Sheet::parse(&sheet_vec(Style::Sleep, 2350)).unwrap()
}

#[test]
fn the_example_has_its_notes_and_hits() {
    let sheet = example();
    assert_eq!(sheet.edition, Edition::Two);
    assert_eq!(sheet.voice, Voice::EpVel);
    assert_eq!(sheet.tempo, 76.0);
    assert_eq!(sheet.chords[1], [50, 53, 57, 60]);
    assert_eq!(sheet.scale, [10, 0, 2, 5, 7, 9]);
    assert_eq!((sheet.lead.len(), sheet.keys.len()), (4, 5));
    assert_eq!((sheet.hits.len(), sheet.bass.len()), (50, 18));
    let lead = Note {
        bar: 1,
        time: f32::from_bits(0x408b4902),
        midi: 79,
        velocity: f32::from_bits(0x3e7d7a94),
        duration: 2.2,
        role: Role::Passing,
    };
    assert_eq!(sheet.lead[1], lead);
    let roles: Vec<Role> = sheet.lead.iter().map(|note| note.role).collect();
    let expected = [Role::Passing, Role::Passing, Role::Quote, Role::Peak];
    assert_eq!(roles, expected);
    let snare = Hit {
        bar: 0,
        kind: Drum::Snare,
        time: f32::from_bits(0x3f4ce9de),
        gain: f32::from_bits(0x3ecb186f),
    };
    assert_eq!(sheet.hits[2], snare);
    assert_eq!((sheet.keys[0].midi, sheet.bass[0].midi), (48, 39));
}

#[test]
fn the_example_has_its_form() {
    let form = example().form;
    assert_eq!((form.intro.kind, form.intro.bars), (EndingKind::Fade, 4));
    assert_eq!((form.phrases, form.dip), (4, false));
    assert_eq!(
        (form.outro.kind, form.outro.bars),
        (EndingKind::RingsOut, 2)
    );
    assert_eq!(form.bars.len(), 38);
    let no_bass = Plays {
        pad: true,
        keys: true,
        drums: true,
        bass: false,
    };
    assert_eq!(form.bars[24], no_bass);
    let pad = Plays {
        pad: true,
        ..SILENT
    };
    assert_eq!(form.bars[36..], [pad, SILENT]);
}

#[test]
fn a_sheet_made_by_hand_is_laid_out_and_read() {
    let mut sheets = EDITIONS.map(|e| [bare(e), full(e)]).concat();
    for phrases in 4..=6 {
        for outro in endings() {
            for intro in endings() {
                if intro.kind != EndingKind::RingsOut {
                    sheets.push(formed(intro, phrases, outro));
                }
            }
        }
    }
    for (voice, kind) in VOICES.into_iter().zip(DRUMS) {
        // a style's songs have some of the voices, its sheets may have any
        for style in [Style::Hiphop, Style::Sleep] {
            let hits = vec![Hit { kind, ..HIT }];
            sheets.push(Sheet {
                style,
                voice,
                hits,
                ..bare(Edition::Two)
            });
        }
    }
    // what no song has: bars that fall along a lane, and a note twice
    for edition in EDITIONS {
        let note = lead(edition);
        let lead = vec![note, Note { bar: 0, ..note }, note, note];
        sheets.push(Sheet {
            lead,
            ..bare(edition)
        });
    }
    for sheet in sheets {
        let bytes = sheet.to_bytes().unwrap();
        let read = Sheet::parse(&bytes).unwrap();
        assert_eq!(read, sheet);
        // equal to the last bit, for which `==` does not look
        assert_eq!(read.laid_out(), bytes);
    }
}

#[test]
fn the_shortest_and_the_longest_sheets_have_their_lengths() {
    let len = |sheet: Sheet| sheet.to_bytes().unwrap().len();
    assert_eq!(EDITIONS.map(bare).map(len), [119, 123]);
    assert_eq!(
        EDITIONS.map(full).map(len),
        EDITIONS.map(Edition::sheet_most)
    );
}

#[test]
fn a_negative_zero_stays_one() {
    let bare = bare(Edition::Two);
    let sheet = Sheet::parse(&bare.to_bytes().unwrap()).unwrap();
    assert_eq!(sheet.tempo.to_bits(), 0x8000_0000);
    let zero = Sheet {
        tempo: 0.0,
        ..bare.clone()
    };
    assert_eq!(zero, bare);
    assert_ne!(zero.to_bytes(), bare.to_bytes());
}
