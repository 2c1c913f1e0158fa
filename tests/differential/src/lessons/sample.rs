//! The lessons that are recorded: each key, tempo and voice that a style has, each set of faults, and spans from one
//! seed to as many as there may be.

use super::judge::{ANY, COUNT_MOST, Judged, Lesson, Songs, Wish};
use super::refusals::{Bad, NO_TEMPO};
use std::collections::BTreeSet;

/// How many seeds the short spans have at most.
const SHORT: u64 = 300;

/// How many keys, tempos and voices songs can have, together: 12, 13 and 3 in hiphop, 12, 5 and 2 in sleep.
const SINGLE: [usize; 2] = [28, 19];

/// How far apart the songs are that are wished for by all three things.
const APART: usize = 10;

/// Values out of range; the last span goes one seed past the largest.
const BAD: [Bad; 3] = [
    Bad::new(2, (0, 0), 13, 4),
    Bad::new(3, (0, COUNT_MOST + 1), 128, 12),
    Bad::new(255, (u64::MAX - 6, 8), 255, 254),
];

const fn tempo(tempo: u8) -> Wish {
    Wish { tempo, ..ANY }
}

const fn voice(voice: u8) -> Wish {
    Wish { voice, ..ANY }
}

/// Wishes that are within the codes and that no song of the style has: in hiphop and in sleep.
const FOREIGN: [[Wish; 4]; 2] = [
    [voice(3), tempo(69), tempo(83), tempo(12)],
    [voice(1), voice(2), tempo(72), tempo(78)],
];

/// Lessons, and what has to be answered.
#[derive(Default)]
struct Chosen(Vec<(Lesson, Judged)>);

impl Chosen {
    /// One lesson more, if it is none of those before.
    fn push(&mut self, songs: &Songs, lesson: Lesson) {
        if self.0.iter().all(|(other, _)| *other != lesson) {
            self.0.push((lesson, songs.judge(&lesson)));
        }
    }

    /// The wish around a place whose song has it, so that its seed alone fits: as the first of the span, as the last,
    /// and in between, by turns; and before or behind it, where none fits.
    fn push_narrowed(&mut self, songs: &Songs, place: usize, wish: Wish) {
        let turn = self.0.len();
        let (alone, without) = songs.narrowed(place, wish);
        self.push(songs, alone[turn % 3]);
        if let Some(&lesson) = without.get(turn % 2) {
            self.push(songs, lesson);
        }
    }

    /// Each key, tempo and voice that a song has, wished for alone, where it first occurs.
    fn push_single(&mut self, songs: &Songs, style: usize) {
        let mut seen = BTreeSet::new();
        for (place, traits) in songs.traits().iter().enumerate() {
            for wish in ANY.mixed(traits.wish()) {
                if seen.insert((wish.key, wish.tempo, wish.voice)) {
                    self.push_narrowed(songs, place, wish);
                }
            }
        }
        assert_eq!(seen.len(), SINGLE[style], "each of them occurs");
    }

    /// All that a song has, of the first one, the last one and some in between.
    fn push_all_three(&mut self, songs: &Songs) {
        let last = songs.traits().len() - 1;
        for place in (0..last).step_by(APART).chain([last]) {
            self.push_narrowed(songs, place, songs.traits()[place].wish());
        }
    }

    /// Anything, over spans that have the first song or the last; and what no song of the style has.
    fn push_any(&mut self, songs: &Songs, style: usize) {
        let n = songs.traits().len();
        for places in [0..1, 0..2, n - 1..n, n - 2..n, 0..n] {
            self.push(songs, songs.lesson(places, ANY));
        }
        for wish in FOREIGN[style] {
            self.push(songs, songs.whole(wish));
        }
    }

    /// Each set of faults, with two values of each, beside a wish that a song has and one that none has.
    fn push_faults(&mut self, songs: &Songs, style: usize) {
        let own = songs.traits()[3].wish();
        let tempo = NO_TEMPO;
        for wish in [own, Wish { tempo, ..own }] {
            let lesson = songs.lesson(0..8, wish);
            for (bad, faults) in (1..16).flat_map(|faults| [(style, faults), (2, faults)]) {
                let (lesson, number) = BAD[bad].spoiled(lesson, faults);
                assert_eq!(lesson.sound(), Err(number), "{lesson}");
                self.push(songs, lesson);
            }
        }
    }

    /// Spans of as many seeds as there may be.
    fn push_longest(&mut self, songs: &Songs, style: usize) {
        let own = songs.traits()[songs.traits().len() - 1].wish();
        let [foreign, other, ..] = FOREIGN[style];
        let none = Wish {
            voice: foreign.voice,
            ..own
        };
        for wish in [ANY, own, foreign, other, none] {
            self.push(songs, songs.whole(wish));
        }
    }
}

/// The lessons over the lowest seeds and over the largest, in both styles.
pub fn judged() -> Vec<(Lesson, Judged)> {
    let mut chosen = Chosen::default();
    let longest = [0, u64::MAX - (COUNT_MOST - 1)];
    for (style, start) in [0, 1].into_iter().zip(longest) {
        let songs = |start: u64, count: u64| Songs::of(style as u8, start, count);
        let high = songs(u64::MAX - (SHORT - 1), SHORT);
        chosen.push_single(&songs(0, SHORT), style);
        chosen.push_all_three(&high);
        chosen.push_any(&high, style);
        chosen.push_faults(&high, style);
        chosen.push_longest(&songs(start, COUNT_MOST), style);
    }
    chosen.0
}
