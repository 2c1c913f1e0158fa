//! Whole spans, whose songs the Rust composes once: wishes over all of a span and over parts of it; and seeds made to
//! draw what decides.

use super::judge::{ANY, COUNT_MOST, Songs, Wish};
use super::{compare, compare_narrowed, compare_span};
use crate::draws::{around, seed_with};
use crate::reread::sheets::Draws;
use crate::tally::Tally;
use std::ops::Range;

/// Where the spans start: one has the lowest seeds, one those in the middle, and one ends with the largest.
const STARTS: [u64; 3] = [0, (1 << 63) - COUNT_MOST / 2, u64::MAX - (COUNT_MOST - 1)];

/// The short parts of a span, by their places, over which every wish is tried.
const SHORT: [Range<usize>; 5] = [0..1, 0..300, 30_000..30_040, 65_236..65_536, 65_535..65_536];

/// How many seeds the parts have that start with a span and that end with it.
const COUNTS: [usize; 18] = [
    1, 2, 3, 7, 8, 9, 127, 128, 129, 255, 256, 257, 4096, 4097, 32_767, 32_768, 65_535, 65_536,
];

/// The draws that decide on key, tempo and voice: the stage by its place, the draw's number, and into how many equal
/// parts the unit falls. The tempo's halves are ends of such parts, in hiphop of 24 and in sleep of 8.
const DRAWN: [(usize, u64, u64); 4] = [(1, 3, 12), (2, 1, 24), (2, 1, 8), (7, 1, 20)];

/// Every key and any, with every voice and any, at each of these tempos.
fn wishes_at(tempos: impl Iterator<Item = u8>) -> impl Iterator<Item = Wish> {
    let voices = [0, 1, 2, 3, ANY.voice];
    tempos.flat_map(move |tempo| {
        let keys = 0..=ANY.key;
        keys.flat_map(move |key| voices.map(|voice| Wish { key, tempo, voice }))
    })
}

/// One thing at a time: every key, voice and tempo.
fn single_wishes() -> impl Iterator<Item = Wish> {
    let keys = (0..12).map(|key| Wish { key, ..ANY });
    let tempos = (1..=255).map(|tempo| Wish { tempo, ..ANY });
    let voices = (0..4).map(|voice| Wish { voice, ..ANY });
    keys.chain(tempos).chain(voices)
}

/// What was compared in one style, and for how many lessons no seed fits, just one, and more.
#[derive(Default)]
struct Part {
    tally: Tally,
    none: u64,
    one: u64,
    many: u64,
}

impl Part {
    fn compare(&mut self, songs: &Songs, places: Range<usize>, wish: Wish) {
        let judged = compare(&mut self.tally, songs, &songs.lesson(places, wish));
        let times = match judged.as_deref() {
            Err(_) => &mut self.none,
            Ok([_]) => &mut self.one,
            Ok(_) => &mut self.many,
        };
        *times += 1;
    }

    /// A wish over the whole span; and, where seeds fit, narrowed so that one alone does: the first one, the last, and
    /// the one that has most seeds between itself and the one before. Where none fits, every seed is looked at, which
    /// takes its time: so that is tried over the lowest span alone.
    fn compare_whole(&mut self, songs: &Songs, wish: Wish) {
        let whole = 0..songs.traits().len();
        let fits = |place: &usize| songs.traits()[*place].has(wish);
        let fitting: Vec<usize> = whole.clone().filter(fits).collect();
        if fitting.is_empty() && songs.seed(0) != 0 {
            return;
        }
        self.compare(songs, whole, wish);
        let gaps = fitting.windows(2).map(|two| (two[1] - two[0], two[1]));
        let farthest = gaps.max().map(|(_, place)| place);
        let ends = [fitting.first(), fitting.last()].into_iter().flatten();
        for place in ends.copied().chain(farthest) {
            compare_narrowed(&mut self.tally, songs, place, wish);
        }
    }

    /// Parts that start with the span, for what their last song has, and parts that end with it, for what their first
    /// one has; and both for anything.
    fn compare_counts(&mut self, songs: &Songs) {
        let all = songs.traits().len();
        for count in COUNTS {
            let parts = [(0..count, count - 1), (all - count..all, all - count)];
            for (places, wished) in parts {
                let wish = songs.traits()[wished].wish();
                self.compare(songs, places.clone(), wish);
                self.compare(songs, places, ANY);
            }
        }
    }

    fn compare_songs(&mut self, songs: &Songs) {
        for wish in wishes_at([ANY.tempo].into_iter().chain(60..=90)) {
            for places in SHORT {
                self.compare(songs, places, wish);
            }
            self.compare_whole(songs, wish);
        }
        for wish in wishes_at(0..=255) {
            self.compare(songs, 0..1, wish);
        }
        self.compare_counts(songs);
    }
}

/// Seeds that draw within two steps of what decides on key, tempo or voice, each in a span of its own.
fn compare_drawn(part: &mut Part, style: u8) {
    for (stage, n, parts) in DRAWN {
        for k in (0..=parts).flat_map(|part| around(part, parts)) {
            let seed = seed_with(stage, n, k << 40);
            let songs = Songs::of(style, seed, 1);
            compare_span(&mut part.tally, &mut Draws::of(seed), &songs);
            for wish in single_wishes() {
                part.compare(&songs, 0..1, wish);
            }
        }
    }
}

fn part_in(style: u8) -> Part {
    let mut part = Part::default();
    for start in STARTS {
        part.compare_songs(&Songs::of(style, start, COUNT_MOST));
    }
    compare_drawn(&mut part, style);
    part
}

/// Both styles, each on a thread of its own. Stops the run where one of them had no lesson for which no seed fits,
/// none with just one, or none with more.
pub fn compare_all(tally: &mut Tally) {
    let parts = std::thread::scope(|scope| {
        let both = [0, 1].map(|style| scope.spawn(move || part_in(style)));
        both.map(|part| part.join().expect("the style's part ended"))
    });
    for part in parts {
        let times = [part.none, part.one, part.many];
        assert!(!times.contains(&0), "each occurs: {times:?}");
        *tally = std::mem::take(tally).join(part.tally);
    }
}
