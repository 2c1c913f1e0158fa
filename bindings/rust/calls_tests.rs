//! The calls for sheets, pages and hall lists, and what the tests of all calls share.

use super::*;
use std::collections::HashSet;

pub const EDITIONS: [Edition; 2] = [Edition::One, Edition::Two];

pub const STYLES: [Style; 2] = [Style::Hiphop, Style::Sleep];
const SEEDS: [u64; 4] = [0, 1, 1234567, u64::MAX];

/// SplitMix64's first numbers for the seed 1234567, as they are published.
const PUBLISHED: [u64; 5] = [
    6457827717110365317,
    3203168211198807973,
    9817491932198370423,
    4593380528125082431,
    16408922859458223821,
];

pub fn songs() -> impl Iterator<Item = (Style, u64)> {
    STYLES
        .into_iter()
        .flat_map(|style| SEEDS.map(|seed| (style, seed)))
}

fn lists() -> impl Iterator<Item = (u64, u64)> {
    SEEDS
        .into_iter()
        .flat_map(|hall| [1, 5, COUNT_MOST].map(|count| (hall, count)))
}

/// A buffer with another byte than its neighbours at each place.
pub fn marked(len: usize) -> Vec<u8> {
    (0..len).map(|i| 0x55 ^ i as u8).collect()
}

/// The bodies of the fields, by their tags.
pub fn fields(mut bytes: &[u8]) -> Vec<(u8, &[u8])> {
    let mut all = Vec::new();
    while let [tag, high, low, rest @ ..] = bytes {
        let (body, after) = rest.split_at(u16::from_be_bytes([*high, *low]).into());
        all.push((*tag, body));
        bytes = after;
    }
    assert!(bytes.is_empty(), "the last field ends where the bytes do");
    all
}

/// The bytes of a song's sheet as edition 1 has them: without the field 0x00, and without the last byte of each note.
/// None of the code that is tested lays them out.
pub fn in_edition_1(sheet: &[u8]) -> Vec<u8> {
    let mut bytes = vec![];
    for (tag, body) in fields(sheet).into_iter().skip(1) {
        let body = match tag {
            5 | 6 | 8 => body.chunks(15).map(|note| &note[..14]).collect(),
            _ => vec![body],
        }
        .concat();
        bytes.push(tag);
        bytes.extend((body.len() as u16).to_be_bytes());
        bytes.extend(body);
    }
    bytes
}

#[test]
fn a_sheet_has_eleven_fields_and_names_its_edition_and_song() {
    for (style, seed) in songs() {
        let sheet = sheet_vec(style, seed);
        let fields = fields(&sheet);
        let tags: Vec<u8> = fields.iter().map(|f| f.0).collect();
        assert_eq!(tags, (0..=10).collect::<Vec<u8>>());
        assert_eq!(fields[0].1, [2]);
        assert_eq!(fields[1].1[0], style as u8);
        assert_eq!(fields[1].1[1..9], seed.to_be_bytes());
    }
}

#[test]
fn what_lies_beyond_a_sheet_or_page_stays() {
    for (style, seed) in songs() {
        let mut buf = marked(SHEET_MOST + 9);
        let len = sheet(style, seed, &mut buf).unwrap();
        assert_eq!(buf[..len], sheet_vec(style, seed));
        assert_eq!(buf[len..], marked(SHEET_MOST + 9)[len..]);
        let mut buf = marked(PAGE_MOST + 9);
        let len = bar_page(style, seed, 0, &mut buf).unwrap();
        assert_eq!(Some(buf[..len].to_vec()), pages(style, seed).next());
        assert_eq!(buf[len..], marked(PAGE_MOST + 9)[len..]);
    }
}

#[test]
fn a_song_has_a_page_for_each_bar_of_its_sheet() {
    for (style, seed) in songs() {
        let sheet = sheet_vec(style, seed);
        let bars = fields(&sheet)[10].1.len();
        assert!((32..=64).contains(&bars));
        assert_eq!(pages(style, seed).count(), bars);
        for page in pages(style, seed) {
            let fields = fields(&page);
            let tags: Vec<u8> = fields.iter().map(|f| f.0).collect();
            assert_eq!(tags, [0, 3, 5, 6, 7, 8]);
            assert_eq!(fields[0].1, [2]);
        }
        for bar in [bars as u64, 64, u64::MAX] {
            let mut buf = marked(PAGE_MOST);
            let refusal = Err(Refusal::NoSuchBar);
            assert_eq!(bar_page(style, seed, bar, &mut buf), refusal);
            assert_eq!(buf, marked(PAGE_MOST));
        }
    }
}

#[test]
fn a_short_buffer_is_refused_and_keeps_its_bytes() {
    for (style, seed) in songs() {
        let short = sheet_vec(style, seed).len() - 1;
        for len in [short, 1, 0] {
            let mut buf = marked(len);
            assert_eq!(sheet(style, seed, &mut buf), Err(Refusal::ShortBuffer));
            assert_eq!(buf, marked(len));
        }
        let mut buf = marked(short + 1);
        assert_eq!(sheet(style, seed, &mut buf), Ok(short + 1));
        for (bar, page) in (0..).zip(pages(style, seed)) {
            let mut buf = marked(page.len() - 1);
            let refusal = Err(Refusal::ShortBuffer);
            assert_eq!(bar_page(style, seed, bar, &mut buf), refusal);
            assert_eq!(buf, marked(page.len() - 1));
        }
    }
}

#[test]
fn a_style_that_is_none_is_refused() {
    assert_eq!(Style::try_from(0), Ok(Style::Hiphop));
    assert_eq!(Style::try_from(1), Ok(Style::Sleep));
    for style in 2..=255 {
        assert_eq!(Style::try_from(style), Err(Refusal::UnknownStyle));
        let mut buf = marked(SHEET_MOST);
        let (bytes, len) = (buf.as_mut_ptr(), buf.len());
        let answers = unsafe {
            [
                raw::seqochanu_sheet(style, 1, bytes, len),
                raw::seqochanu_bar_page(style, 1, 0, bytes, len),
            ]
        };
        assert_eq!(answers.map(written), [Err(Refusal::UnknownStyle); 2]);
        assert_eq!(buf, marked(SHEET_MOST));
    }
}

#[test]
fn a_hall_list_has_the_published_numbers() {
    assert_eq!(hall_list(1234567, 5).unwrap(), PUBLISHED);
    assert_eq!(hall_list(0, 1).unwrap(), [16294208416658607535]);
}

#[test]
fn a_hall_list_has_as_many_seeds_as_asked_and_no_two_equal() {
    for hall in SEEDS {
        let longest = hall_list(hall, COUNT_MOST).unwrap();
        assert_eq!(longest.len() * 8, LIST_MOST);
        assert_eq!(longest.iter().collect::<HashSet<_>>().len(), 4096);
        for count in [1, 2, 5, 4095, 4096] {
            // a longer list starts with the shorter one
            assert_eq!(hall_list(hall, count as u64).unwrap(), longest[..count]);
        }
    }
}

#[test]
fn a_hall_list_is_written_into_every_buffer_with_room() {
    for (hall, count) in lists() {
        let seeds = hall_list(hall, count).unwrap();
        let bytes: Vec<u8> = seeds.into_iter().flat_map(u64::to_be_bytes).collect();
        for room in [bytes.len(), bytes.len() + 9, LIST_MOST + 9] {
            let mut buf = marked(room);
            assert_eq!(list_into(hall, count, &mut buf), Ok(bytes.len()));
            assert_eq!(buf[..bytes.len()], bytes);
            assert_eq!(buf[bytes.len()..], marked(room)[bytes.len()..]);
        }
        for room in [bytes.len() - 1, bytes.len() - 8, 0] {
            let mut buf = marked(room);
            assert_eq!(list_into(hall, count, &mut buf), Err(Refusal::ShortBuffer));
            assert_eq!(buf, marked(room));
        }
    }
}

#[test]
fn a_count_out_of_range_is_refused_before_a_short_buffer() {
    // eight times 2^61 is 0 modulo 2^64, and would fit any buffer
    for count in [0, 4097, 1 << 16, 1 << 32, 1 << 61, (1 << 61) + 1, u64::MAX] {
        for hall in SEEDS {
            let refusal = Refusal::HallCount;
            assert_eq!(hall_list(hall, count), Err(refusal));
            for room in [0, 7, LIST_MOST, LIST_MOST + 9] {
                let mut buf = marked(room);
                assert_eq!(list_into(hall, count, &mut buf), Err(refusal));
                assert_eq!(buf, marked(room));
            }
        }
    }
}

#[test]
fn refusals_have_the_numbers_of_the_documents() {
    let refusals = [
        (1, Refusal::UnknownStyle),
        (2, Refusal::ShortBuffer),
        (3, Refusal::NoSuchBar),
        (6, Refusal::HallCount),
        (7, Refusal::SheetFields),
        (8, Refusal::SheetValues),
        (9, Refusal::OtherSong),
        (10, Refusal::LessonSpan),
        (11, Refusal::LessonWish),
        (12, Refusal::NoSeed),
    ];
    for (number, refusal) in refusals {
        assert_eq!(refusal as i64, number);
        assert_eq!(written(-number), Err(refusal));
    }
    assert_eq!(Refusal::Malformed as u8, 4);
    assert_eq!(written(17), Ok(17));
}

#[test]
#[should_panic(expected = "no C function refuses with another number")]
fn a_c_function_never_refuses_with_4() {
    let _ = written(-4);
}
