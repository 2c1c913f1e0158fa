//! Songs and lessons by hand: what the driver itself must say of them, so that it can't agree with anything whatever.

use super::judge::{COUNT_MOST, Judged, Lesson, Songs, Traits, Wish};
use super::{compare_call, compare_refused};
use crate::compose::reach::{STYLES, take};
use crate::tally::Tally;

/// Key, tempo and voice of a song.
type Three = (u8, u8, u8);

/// The first of the six largest seeds.
const LAST: u64 = u64::MAX - 5;

/// The songs of six seeds from the first one on, in hiphop and in sleep. They were worked out by document 01 from the
/// published SplitMix64, with no code of the Rust; of the seeds 0, 2 and 4 crate `replay` has tempo and voice.
const SONGS: [(u64, [[Three; 6]; 2]); 2] = [(0, LOW_SONGS), (LAST, HIGH_SONGS)];

const LOW_SONGS: [[Three; 6]; 2] = [
    [
        (10, 81, 0),
        (10, 78, 1),
        (9, 72, 0),
        (7, 81, 1),
        (5, 74, 1),
        (10, 75, 2),
    ],
    [
        (10, 77, 0),
        (10, 76, 3),
        (9, 74, 0),
        (7, 77, 3),
        (5, 74, 3),
        (10, 75, 0),
    ],
];

const HIGH_SONGS: [[Three; 6]; 2] = [
    [
        (9, 78, 0),
        (10, 80, 1),
        (2, 79, 2),
        (11, 77, 1),
        (10, 81, 2),
        (5, 79, 1),
    ],
    [
        (9, 76, 0),
        (10, 76, 3),
        (2, 76, 0),
        (11, 75, 3),
        (10, 77, 0),
        (5, 76, 3),
    ],
];

/// The song that docs/EXAMPLE.md takes apart, by style and seed; and its first chord's root, which is not its key.
const EXAMPLE: (u8, u64, Three, u8) = (1, 2350, (10, 76, 0), 3);

/// Style, start, count, key, tempo and voice.
type Asked = (u8, u64, u64, u8, u8, u8);

/// Lessons over the six lowest seeds, and which of them fit.
const LOW: [(Asked, &[u64]); 44] = [
    ((0, 0, 6, 12, 0, 255), &[0, 1, 2, 3, 4, 5]),
    // one thing
    ((0, 0, 6, 10, 0, 255), &[0, 1, 5]),
    ((0, 0, 6, 0, 0, 255), &[]),
    ((0, 0, 6, 11, 0, 255), &[]),
    ((0, 0, 6, 12, 81, 255), &[0, 3]),
    ((0, 0, 6, 12, 80, 255), &[]),
    ((0, 0, 6, 12, 82, 255), &[]),
    ((0, 0, 6, 12, 77, 255), &[]),
    ((0, 0, 6, 12, 12, 255), &[]),
    ((0, 0, 6, 12, 255, 255), &[]),
    ((0, 0, 6, 12, 0, 0), &[0, 2]),
    ((0, 0, 6, 12, 0, 1), &[1, 3, 4]),
    ((0, 0, 6, 12, 0, 2), &[5]),
    ((0, 0, 6, 12, 0, 3), &[]),
    // two and three
    ((0, 0, 6, 10, 81, 255), &[0]),
    ((0, 0, 6, 10, 0, 1), &[1]),
    ((0, 0, 6, 12, 81, 1), &[3]),
    ((0, 0, 6, 9, 81, 255), &[]),
    ((0, 0, 6, 7, 81, 1), &[3]),
    ((0, 0, 6, 7, 81, 0), &[]),
    ((0, 0, 6, 7, 78, 1), &[]),
    ((0, 0, 6, 10, 81, 1), &[]),
    ((0, 0, 6, 10, 75, 2), &[5]),
    // parts of the span
    ((0, 0, 1, 10, 81, 0), &[0]),
    ((0, 0, 1, 9, 72, 0), &[]),
    ((0, 0, 3, 7, 0, 255), &[]),
    ((0, 0, 4, 7, 0, 255), &[3]),
    ((0, 3, 3, 7, 0, 255), &[3]),
    ((0, 3, 1, 7, 81, 1), &[3]),
    ((0, 4, 2, 7, 0, 255), &[]),
    ((0, 1, 4, 10, 0, 255), &[1]),
    ((0, 1, 5, 10, 0, 255), &[1, 5]),
    ((0, 2, 4, 10, 0, 255), &[5]),
    ((0, 2, 3, 10, 0, 255), &[]),
    // the other style
    ((1, 0, 6, 10, 0, 255), &[0, 1, 5]),
    ((1, 0, 6, 12, 0, 3), &[1, 3, 4]),
    ((1, 0, 6, 12, 0, 0), &[0, 2, 5]),
    ((1, 0, 6, 12, 0, 1), &[]),
    ((1, 0, 6, 12, 77, 255), &[0, 3]),
    ((1, 0, 6, 12, 81, 255), &[]),
    ((1, 0, 6, 12, 74, 3), &[4]),
    ((1, 0, 6, 9, 74, 3), &[]),
    ((1, 0, 6, 10, 76, 3), &[1]),
    ((1, 1, 1, 10, 76, 3), &[1]),
];

/// Lessons over the six largest seeds, and which of them fit.
const HIGH: [(Asked, &[u64]); 11] = [
    ((0, LAST, 6, 10, 0, 255), &[LAST + 1, LAST + 4]),
    ((0, LAST, 6, 5, 79, 1), &[u64::MAX]),
    ((0, LAST, 5, 5, 79, 1), &[]),
    ((0, u64::MAX, 1, 5, 79, 1), &[u64::MAX]),
    ((0, u64::MAX, 1, 12, 0, 255), &[u64::MAX]),
    ((0, u64::MAX, 1, 2, 0, 255), &[]),
    ((1, LAST, 6, 12, 76, 3), &[LAST + 1, u64::MAX]),
    ((1, LAST, 6, 2, 76, 0), &[LAST + 2]),
    ((1, LAST, 6, 9, 0, 255), &[LAST]),
    ((1, LAST + 1, 5, 9, 0, 255), &[]),
    ((1, LAST, 6, 12, 75, 0), &[]),
];

/// Lessons that are refused with no look at a song, and the number.
const REFUSED: [(Asked, i64); 27] = [
    ((2, 0, 6, 12, 0, 255), 1),
    ((255, 0, 6, 12, 0, 255), 1),
    ((2, 0, 0, 12, 0, 255), 1),
    ((2, 0, 6, 13, 0, 255), 1),
    ((2, u64::MAX, 2, 13, 200, 4), 1),
    ((0, 0, 0, 12, 0, 255), 10),
    ((1, 0, COUNT_MOST + 1, 12, 0, 255), 10),
    ((0, 0, (1 << 32) + 6, 12, 0, 255), 10),
    ((0, 0, 1 << 63, 12, 0, 255), 10),
    ((0, 0, u64::MAX, 12, 0, 255), 10),
    ((0, 1, u64::MAX, 12, 0, 255), 10),
    ((0, u64::MAX, 0, 12, 0, 255), 10),
    ((0, u64::MAX, 2, 12, 0, 255), 10),
    ((0, LAST, 7, 12, 0, 255), 10),
    ((0, LAST, COUNT_MOST, 12, 0, 255), 10),
    ((1, u64::MAX - 65_534, COUNT_MOST, 12, 0, 255), 10),
    ((0, 0, 0, 13, 0, 255), 10),
    ((0, 0, COUNT_MOST + 1, 12, 0, 4), 10),
    ((0, u64::MAX, 2, 13, 200, 4), 10),
    ((0, 0, 6, 13, 0, 255), 11),
    ((1, 0, 6, 255, 0, 255), 11),
    ((0, 0, 6, 12, 0, 4), 11),
    ((0, 0, 6, 12, 0, 12), 11),
    ((1, 0, 6, 12, 0, 254), 11),
    ((0, 0, 6, 13, 200, 255), 11),
    ((0, 0, 6, 12, 200, 4), 11),
    ((0, 0, 6, 13, 200, 4), 11),
];

fn lesson((style, start, count, key, tempo, voice): Asked) -> Lesson {
    let wish = Wish { key, tempo, voice };
    Lesson {
        style,
        start,
        count,
        wish,
    }
}

fn assert_song(style: u8, seed: u64, (key, tempo, voice): Three) {
    let bpm = f32::from(tempo);
    let wanted = Traits { key, bpm, voice };
    assert_eq!(Traits::of(style, seed), wanted, "{seed:#x} in {style}");
}

/// The lessons over six seeds, from the first one on: what the driver says of them, and then what our library does.
fn compare_fitting(tally: &mut Tally, first: u64, lessons: &[(Asked, &[u64])]) {
    let songs = [0, 1].map(|style| Songs::of(style, first, 6));
    for &(asked, fitting) in lessons {
        let lesson = lesson(asked);
        let songs = &songs[usize::from(lesson.style)];
        let wanted: Judged = match fitting {
            [] => Err(12),
            seeds => Ok(seeds.to_vec()),
        };
        assert_eq!(songs.judge(&lesson), wanted, "{lesson}");
        for seed in (0..6).map(|place| songs.seed(place)) {
            let takes = lesson.takes(seed);
            assert_eq!(takes, fitting.contains(&seed), "{seed:#x} for {lesson}");
        }
        compare_call(tally, &lesson, &wanted, lesson.far());
    }
}

fn assert_songs() {
    for (first, songs) in SONGS {
        for (style, songs) in (0..).zip(songs) {
            let seeds = (first..=u64::MAX).zip(songs);
            seeds.for_each(|(seed, three)| assert_song(style, seed, three));
        }
    }
    let (style, seed, three, root) = EXAMPLE;
    assert_song(style, seed, three);
    assert_eq!(take(STYLES[usize::from(style)], seed).roots[0], root);
}

/// Stops the run where the driver says something else than is written here.
pub fn compare_all(tally: &mut Tally) {
    assert_songs();
    compare_fitting(tally, 0, &LOW);
    compare_fitting(tally, LAST, &HIGH);
    for (asked, number) in REFUSED {
        compare_refused(tally, &lesson(asked), number);
    }
}
