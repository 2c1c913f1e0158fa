//! Seeds for lessons: those that are found, held to what stands on their songs' sheets, and the calls that are refused.

use super::super::tests::{STYLES, songs};
use super::super::{SPAN_MOST, Sheet, sheet_vec};
use super::*;

/// How many seeds a span has whose sheets are all looked at.
const LOOKED_AT: u64 = 300;

/// No song is so fast.
const TOO_FAST: u8 = 200;

/// Before, at and behind the place of the seed: none of them is one that is found here.
const MARKS: [u64; 3] = [
    0x5aa5_5aa5_0123_4567,
    0xa55a_a55a_89ab_cdef,
    0x3cc3_3cc3_7654_3210,
];

/// What a song has, by its sheet: all three.
fn had(style: Style, seed: u64) -> Wishes {
    let sheet = Sheet::parse(&sheet_vec(style, seed)).unwrap();
    let tempo = sheet.tempo as u8;
    assert_eq!(f32::from(tempo), sheet.tempo, "a song's tempo is whole");
    Wishes {
        key: Some(Key::try_from(sheet.scale[0]).unwrap()),
        tempo: NonZeroU8::new(tempo),
        voice: Some(sheet.voice),
    }
}

/// Whether a song that has these three has what is wished for.
fn fits(song: &Wishes, wishes: Wishes) -> bool {
    wishes.key.is_none_or(|key| song.key == Some(key))
        && wishes.tempo.is_none_or(|tempo| song.tempo == Some(tempo))
        && wishes.voice.is_none_or(|voice| song.voice == Some(voice))
}

/// None of the three, each alone, each two of them, and all together.
fn parts(all: Wishes) -> impl Iterator<Item = Wishes> {
    (0..8).map(move |bits| Wishes {
        key: all.key.filter(|_| bits & 1 != 0),
        tempo: all.tempo.filter(|_| bits & 2 != 0),
        voice: all.voice.filter(|_| bits & 4 != 0),
    })
}

/// A seed is found: it is in the span, and its song's sheet has what is wished for.
fn found(style: Style, start: u64, count: u64, wishes: Wishes) {
    let what = format!("{style:?}, {count} from {start:#x}, {wishes:?}");
    let seed = lesson(style, start, count, wishes).expect(&what);
    assert!(seed >= start && seed - start < count, "{seed:#x}: {what}");
    assert!(fits(&had(style, seed), wishes), "{seed:#x}: {what}");
}

/// What the songs have, by their sheets, of a span of `LOOKED_AT` seeds.
fn looked_at(style: Style, start: u64) -> Vec<Wishes> {
    (0..LOOKED_AT).map(|i| had(style, start + i)).collect()
}

/// Of a span whose songs have these, a seed is found whose song has what is wished for; none exactly if no song has it.
fn agrees(style: Style, start: u64, songs: &[Wishes], wishes: Wishes) {
    let what = format!("{style:?}, {} from {start:#x}, {wishes:?}", songs.len());
    match lesson(style, start, songs.len() as u64, wishes) {
        Ok(seed) => {
            let place = seed.checked_sub(start).expect(&what) as usize;
            assert!(
                songs.get(place).is_some_and(|song| fits(song, wishes)),
                "{what}"
            );
        }
        Err(refusal) => {
            let due = !songs.iter().any(|song| fits(song, wishes));
            assert_eq!((refusal, due), (Refusal::NoSeed, true), "{what}");
        }
    }
}

/// The C function's answer, and what then stands at the place of the seed and beside it, where `MARKS` stood.
fn called(style: u8, (start, count): (u64, u64), [key, tempo, voice]: [u8; 3]) -> (i64, [u64; 3]) {
    let mut places = MARKS;
    let seed = &raw mut places[1];
    let answer = unsafe { raw::seqochanu_lesson(style, start, count, key, tempo, voice, seed) };
    (answer, places)
}

/// The C function refuses with this number, and changes nothing.
fn refused(number: i64, style: u8, span: (u64, u64), codes: [u8; 3]) {
    let what = format!("style {style}, {span:x?}, {codes:?}");
    assert_eq!(called(style, span, codes), (-number, MARKS), "{what}");
}

/// Every wish that the C function takes, by its codes, but of the tempos those alone that are near songs' own or far
/// away.
fn wishes() -> impl Iterator<Item = Wishes> {
    let tempos = [0, 1, TOO_FAST, 255].into_iter().chain(65..=90);
    tempos.flat_map(|tempo| {
        let voices = [
            Voice::EpVel,
            Voice::Pluck,
            Voice::Kalimba,
            Voice::Vibraphone,
        ];
        let voices = voices.map(Some).into_iter().chain([None]);
        voices.flat_map(move |voice| {
            (0..=12).map(move |key| Wishes {
                key: Key::try_from(key).ok(),
                tempo: NonZeroU8::new(tempo),
                voice,
            })
        })
    })
}

#[test]
fn keys_are_0_to_11() {
    for number in 0..=255 {
        let key = Key::try_from(number).map(u8::from);
        let due = match number {
            0..=11 => Ok(number),
            _ => Err(Refusal::LessonWish),
        };
        assert_eq!(key, due);
    }
}

#[test]
fn wishes_have_the_codes_of_the_documents() {
    let all = Wishes {
        key: Some(Key(7)),
        tempo: NonZeroU8::new(76),
        voice: Some(Voice::Kalimba),
    };
    assert_eq!(all.codes(), [7, 76, 2]);
    assert_eq!(Wishes::default().codes(), [12, 0, 255]);
}

#[test]
fn a_found_seed_is_in_the_span_and_its_sheet_has_what_is_wished_for() {
    for (style, seed) in songs() {
        for count in [LOOKED_AT, SPAN_MOST] {
            let start = seed.saturating_sub(150).min(u64::MAX - (count - 1));
            for wishes in parts(had(style, seed)) {
                found(style, start, count, wishes);
            }
        }
    }
}

#[test]
fn of_a_span_of_one_seed_that_one_is_found() {
    let more = STYLES
        .into_iter()
        .flat_map(|style| (0..50).map(move |seed| (style, seed)));
    for (style, seed) in songs().chain(more) {
        for wishes in parts(had(style, seed)) {
            assert_eq!(lesson(style, seed, 1, wishes), Ok(seed));
        }
    }
}

#[test]
fn of_a_span_of_one_seed_none_is_found_by_another_key_tempo_or_voice() {
    for (style, seed) in songs() {
        let codes = had(style, seed).codes();
        let ranges = [0..=11, 1..=255, 0..=3];
        for (i, range) in ranges.into_iter().enumerate() {
            for code in range.filter(|code| *code != codes[i]) {
                let mut other = codes;
                other[i] = code;
                refused(12, style as u8, (seed, 1), other);
                // by itself too
                let mut alone = Wishes::default().codes();
                alone[i] = code;
                refused(12, style as u8, (seed, 1), alone);
            }
        }
    }
}

#[test]
fn a_span_may_end_at_the_largest_seed_and_not_behind_it() {
    for style in STYLES {
        for count in [1, 2, LOOKED_AT, SPAN_MOST - 1, SPAN_MOST] {
            let start = u64::MAX - (count - 1);
            for seed in [start, u64::MAX] {
                found(style, start, count, had(style, seed));
            }
            if count > 1 {
                let past = lesson(style, start + 1, count, Wishes::default());
                assert_eq!(past, Err(Refusal::LessonSpan));
            }
        }
        for count in [2, 3, SPAN_MOST] {
            let past = lesson(style, u64::MAX, count, had(style, u64::MAX));
            assert_eq!(past, Err(Refusal::LessonSpan));
        }
    }
}

#[test]
fn a_count_out_of_range_is_refused() {
    for (style, start) in songs() {
        for count in [0, 65537, 1 << 17, 1 << 32, (1 << 32) + 1, 1 << 63, u64::MAX] {
            for wishes in [Wishes::default(), had(style, start)] {
                let answer = lesson(style, start, count, wishes);
                assert_eq!(answer, Err(Refusal::LessonSpan), "{count} from {start:#x}");
            }
        }
    }
}

#[test]
fn none_is_found_exactly_if_no_sheet_of_the_span_has_what_is_wished_for() {
    for style in STYLES {
        for start in [0, 1 << 63, u64::MAX - (LOOKED_AT - 1)] {
            let songs = looked_at(style, start);
            for wishes in wishes() {
                agrees(style, start, &songs, wishes);
            }
        }
    }
}

#[test]
fn neither_the_seed_before_a_span_nor_the_one_behind_it_is_found() {
    for style in STYLES {
        let songs = looked_at(style, 0);
        let last = songs.len() - 1;
        for (i, song) in songs.iter().enumerate().take(last).skip(1) {
            // up to the song, without it and with it; from it on, with it and without it
            for part in [0..i, 0..i + 1, i..last + 1, i + 1..last + 1] {
                agrees(style, part.start as u64, &songs[part], *song);
            }
        }
    }
}

#[test]
fn no_seed_of_the_longest_span_is_too_fast() {
    let wishes = Wishes {
        tempo: NonZeroU8::new(TOO_FAST),
        ..Wishes::default()
    };
    for (style, seed) in songs() {
        let start = seed.min(u64::MAX - (SPAN_MOST - 1));
        let answer = lesson(style, start, SPAN_MOST, wishes);
        assert_eq!(answer, Err(Refusal::NoSeed));
    }
}

#[test]
fn the_c_function_sets_the_seed_and_nothing_beside_it() {
    for (style, seed) in songs() {
        let set = (0, [MARKS[0], seed, MARKS[2]]);
        for codes in [had(style, seed).codes(), [12, 0, 255]] {
            assert_eq!(called(style as u8, (seed, 1), codes), set);
        }
    }
}

#[test]
fn the_c_function_refuses_every_wish_outside_the_codes() {
    for style in [0, 1] {
        for span in [(0, 1), (0, SPAN_MOST), (u64::MAX, 1)] {
            for key in 13..=255 {
                refused(11, style, span, [key, 0, 255]);
                refused(11, style, span, [key, TOO_FAST, 0]);
            }
            for voice in 4..=254 {
                refused(11, style, span, [12, 0, voice]);
                refused(11, style, span, [0, TOO_FAST, voice]);
            }
        }
        // every tempo is a code
        for tempo in 0..=255 {
            let (answer, _) = called(style, (0, LOOKED_AT), [12, tempo, 255]);
            assert!([0, -12].contains(&answer), "{answer} for tempo {tempo}");
        }
    }
}

#[test]
fn the_c_function_refuses_in_the_order_of_the_documents() {
    let spans = [(0, 0), (0, 65537), (u64::MAX, 2), (u64::MAX, u64::MAX)];
    let outside = [[13, 0, 255], [12, 0, 4], [255, TOO_FAST, 254]];
    let none = [12, TOO_FAST, 255];
    for span in spans.into_iter().chain([(0, 1)]) {
        for codes in outside.into_iter().chain([none, [12, 0, 255]]) {
            for style in 2..=255 {
                refused(1, style, span, codes);
            }
        }
    }
    for style in [0, 1] {
        for codes in outside.into_iter().chain([none, [12, 0, 255]]) {
            for span in spans {
                refused(10, style, span, codes);
            }
        }
        for codes in outside {
            refused(11, style, (0, 1), codes);
        }
        refused(12, style, (0, 1), none);
    }
}
