//! In what the two editions of a sheet differ: the field 0x00 in front, and the role behind each note.

use super::*;

const OPENING: [u8; 4] = [0, 0, 1, 2];

/// The bytes of a bare sheet of edition 1 whose field 0x05 has this body.
fn with_lead(body: &[u8]) -> Vec<u8> {
    let bytes = bare(Edition::One).laid_out();
    let head = [5, 0, body.len() as u8];
    [&bytes[..63], &head, body, &bytes[66..]].concat()
}

#[test]
fn a_sheet_of_edition_1_has_the_song_without_its_roles() {
    for (style, seed) in songs() {
        let bytes = sheet_vec(style, seed);
        let mut song = Sheet::parse(&bytes).unwrap();
        song.edition = Edition::One;
        // its roles have no place in edition 1
        assert_eq!(song.to_bytes(), Err(Refusal::Malformed));
        for note in &mut song.lead {
            note.role = Role::Backing;
        }
        let first = in_edition_1(&bytes);
        assert_eq!(Sheet::parse(&first), Ok(song.clone()));
        assert_eq!(song.to_bytes(), Ok(first));
    }
}

#[test]
fn the_editions_differ_by_the_field_0x00_where_no_note_has_a_role() {
    let [first, second] = EDITIONS.map(|edition| bare(edition).to_bytes().unwrap());
    assert_eq!([&OPENING[..], &first].concat(), second);
}

#[test]
fn the_edition_says_how_wide_a_note_is() {
    // 210 zeros are fifteen notes of edition 1 and fourteen of edition 2, whose roles are 0
    let bytes = with_lead(&[0; 210]);
    let roles = |bytes: &[u8]| -> Vec<Role> {
        let sheet = Sheet::parse(bytes).unwrap();
        sheet.lead.iter().map(|note| note.role).collect()
    };
    assert_eq!(roles(&bytes), [Role::Backing; 15]);
    let second = [&OPENING[..], &bytes].concat();
    assert_eq!(roles(&second), [Role::Quote; 14]);
    // one note of the other edition is no whole note
    refused(&with_lead(&[0; 15]), Refusal::SheetFields);
    let second = [&OPENING[..], &with_lead(&[0; 14])].concat();
    refused(&second, Refusal::SheetFields);
}

#[test]
fn a_field_0x00_with_another_body_is_refused() {
    let first = bare(Edition::One).laid_out();
    for body in [0, 1, 3, 4, 6, 18, 128, 130, 255] {
        let bytes = [&[0, 0, 1, body], &first[..]].concat();
        refused(&bytes, Refusal::SheetFields);
    }
    let others: [&[u8]; 6] = [
        &[0],
        &[0, 0, 0],
        &[0, 0, 1],
        &[0, 0, 2, 0, 2],
        &[0, 0, 2, 2, 2],
        &[0, 1, 1, 2],
    ];
    for other in others {
        refused(&[other, &first].concat(), Refusal::SheetFields);
    }
    // no value is looked at: the style is none either
    let bad = with(&bare(Edition::One), 3, 2);
    refused(&[&[0, 0, 1, 3], &bad[..]].concat(), Refusal::SheetFields);
}

#[test]
fn a_field_0x00_that_is_not_first_is_refused() {
    for edition in EDITIONS {
        let bytes = bare(edition).laid_out();
        // where the ten fields begin in a bare sheet, and where the last one ends
        for place in [0, 13, 20, 55, 63, 66, 69, 72, 75, 84, 119] {
            let (before, after) = bytes.split_at(start(edition) + place);
            // in front of edition 1 it would make a sheet of edition 2
            if !before.is_empty() {
                refused(&[before, &OPENING, after].concat(), Refusal::SheetFields);
            }
        }
    }
}

#[test]
fn a_role_that_the_edition_has_not_there_is_not_written() {
    for role in ROLES {
        let lane = vec![NOTE, Note { role, ..NOTE }];
        for edition in EDITIONS {
            let bare = || bare(edition);
            let lead = vec![lead(edition), Note { role, ..NOTE }];
            let in_lead = Sheet { lead, ..bare() };
            let keys = lane.clone();
            let in_keys = Sheet { keys, ..bare() };
            let bass = lane.clone();
            let in_bass = Sheet { bass, ..bare() };
            let backs = role == Role::Backing;
            let has = match edition {
                Edition::One => [backs; 3],
                Edition::Two => [!backs, backs, backs],
            };
            for (sheet, has) in [in_lead, in_keys, in_bass].into_iter().zip(has) {
                if has {
                    assert_eq!(Sheet::parse(&sheet.to_bytes().unwrap()), Ok(sheet));
                } else if edition == Edition::One {
                    assert_eq!(sheet.to_bytes(), Err(Refusal::Malformed), "{sheet:?}");
                } else {
                    unwritten(&sheet, Refusal::SheetValues);
                }
            }
        }
    }
}
