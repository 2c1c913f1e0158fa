//! Every argument out of range, alone and with others: the refusal is the first in document 02's order.

use super::judge::{ANY, COUNT_MOST, Lesson, Songs, Wish};
use super::{compare, compare_refused};
use crate::tally::Tally;

/// How many seeds the span has that is spoiled.
const SPAN: u64 = 8;

/// A tempo that no song has.
pub const NO_TEMPO: u8 = 200;

/// For each argument that is refused with no look at a song, a value that is out of range: the style, the span by its
/// start and count, the key and the voice.
pub struct Bad {
    pub style: u8,
    pub span: (u64, u64),
    pub key: u8,
    pub voice: u8,
}

impl Bad {
    pub const fn new(style: u8, span: (u64, u64), key: u8, voice: u8) -> Bad {
        Bad {
            style,
            span,
            key,
            voice,
        }
    }

    /// The lesson with those of its arguments out of range that the bits of `faults` name, from the style on, of which
    /// one is set at least; and its refusal.
    pub fn spoiled(&self, mut lesson: Lesson, faults: usize) -> (Lesson, i64) {
        let mut number = 0;
        // from the last refusal to the first, so that the first one stays
        if faults & 8 != 0 {
            (lesson.wish.voice, number) = (self.voice, 11);
        }
        if faults & 4 != 0 {
            (lesson.wish.key, number) = (self.key, 11);
        }
        if faults & 2 != 0 {
            ((lesson.start, lesson.count), number) = (self.span, 10);
        }
        if faults & 1 != 0 {
            (lesson.style, number) = (self.style, 1);
        }
        (lesson, number)
    }
}

/// Among the spans are counts of none and of too many, and seeds past the largest.
const BAD: [Bad; 6] = [
    Bad::new(2, (0, 0), 13, 4),
    Bad::new(3, (0, COUNT_MOST + 1), 14, 12),
    Bad::new(127, (0, u64::MAX), 24, 127),
    Bad::new(128, (1, u64::MAX), 128, 128),
    Bad::new(254, (u64::MAX, 2), 254, 253),
    Bad::new(255, (u64::MAX - (SPAN - 2), SPAN), 255, 254),
];

/// Where spans with a bad count start.
const STARTS: [u64; 8] = [
    0,
    1,
    65_535,
    1 << 32,
    1 << 63,
    u64::MAX - 65_536,
    u64::MAX - 1,
    u64::MAX,
];

/// Counts of which one bit more makes too many: none, and some that are sound.
const LOW: [u64; 7] = [0, 1, 2, SPAN, 300, 65_535, COUNT_MOST];

/// Each set of faults, beside a wish that the first song has or that none has.
fn compare_together(tally: &mut Tally, songs: &Songs) {
    let (own, tempo) = (songs.traits()[0].wish(), NO_TEMPO);
    for wish in [own, ANY, Wish { tempo, ..own }, Wish { tempo, ..ANY }] {
        let lesson = songs.whole(wish);
        let none = (wish.tempo == NO_TEMPO).then_some(12);
        assert_eq!(compare(tally, songs, &lesson).err(), none, "{lesson}");
        for (bad, faults) in BAD
            .iter()
            .flat_map(|bad| (1..16).map(move |faults| (bad, faults)))
        {
            let (lesson, number) = bad.spoiled(lesson, faults);
            compare_refused(tally, &lesson, number);
        }
    }
}

/// Every style, every key and every voice that is none.
fn compare_alone(tally: &mut Tally, songs: &Songs) {
    for wish in [songs.traits()[0].wish(), ANY] {
        let lesson = songs.whole(wish);
        for style in 2..=255 {
            compare_refused(tally, &Lesson { style, ..lesson }, 1);
        }
        for key in 13..=255 {
            compare_refused(tally, &songs.whole(Wish { key, ..wish }), 11);
        }
        for voice in 4..=254 {
            compare_refused(tally, &songs.whole(Wish { voice, ..wish }), 11);
        }
    }
}

/// Counts out of range, among them all that have one bit more than those of `LOW`.
fn counts() -> Vec<u64> {
    let bits = (16..64).flat_map(|bit| LOW.map(|low| (1 << bit) + low));
    let high = [u64::MAX, u64::MAX - 1, u64::MAX - 65_535];
    let many = bits.chain(high).filter(|&count| count > COUNT_MOST);
    many.chain([0]).collect()
}

/// Spans from near the largest seed on: past it by one seed, by two, and with as many seeds as there may be.
fn past() -> impl Iterator<Item = (u64, u64)> {
    let lefts = (0..=300).chain([65_533, 65_534]);
    lefts.flat_map(|left| {
        let counts = [left + 2, left + 3, COUNT_MOST];
        counts.map(|count| (u64::MAX - left, count))
    })
}

/// Spans out of range, for any song.
fn compare_spans(tally: &mut Tally, songs: &Songs) {
    let counted = (STARTS.into_iter())
        .flat_map(|start| counts().into_iter().map(move |count| (start, count)));
    for (start, count) in counted.chain(past()) {
        let lesson = Lesson {
            start,
            count,
            ..songs.whole(ANY)
        };
        compare_refused(tally, &lesson, 10);
    }
}

pub fn compare_all(tally: &mut Tally) {
    for songs in [0, 1].map(|style| Songs::of(style, 0, SPAN)) {
        compare_together(tally, &songs);
        compare_alone(tally, &songs);
        compare_spans(tally, &songs);
    }
}
