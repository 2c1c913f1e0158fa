//! Seeds for lessons: the answer, and the seed that is given, which may be any one of the span that fits. Which ones
//! do say the songs that the Rust composes.

mod by_hand;
mod judge;
mod refusals;
mod sample;
mod spans;

use crate::reread::sheets::Draws;
use crate::tally::Tally;
use crate::{ours, songs};
use judge::{ANY, COUNT_MOST, Judged, Songs, Traits};
pub use judge::{Lesson, Wish};
use refusals::Bad;
pub use sample::judged;

/// The call, with this number lying where the seed would come, and its complement on both sides; the seed that is
/// given, if one is. Where the call refuses, the number has to stay.
fn compare_call(tally: &mut Tally, lesson: &Lesson, judged: &Judged, lying: u64) -> Option<u64> {
    let mut places = [!lying, lying, !lying];
    let answer = ours::lesson(lesson, &mut places[1]);
    let wanted = judged.as_ref().map_or_else(|number| -number, |_| 0);
    tally.same(|| format!("the answer of {lesson}"), wanted, answer);
    let [before, seed, behind] = places;
    let beside = || format!("what lies beside the seed of {lesson}");
    tally.same(beside, [!lying; 2], [before, behind]);
    match judged {
        Ok(fitting) => {
            let input = || format!("whether {seed:#x} is in the span and fits, given for {lesson}");
            tally.same(input, true, fitting.binary_search(&seed).is_ok());
            Some(seed)
        }
        Err(_) => {
            let input = || format!("what lies where the seed of {lesson} would come");
            tally.same(input, lying, seed);
            None
        }
    }
}

/// The seed that was given, its song composed by the Rust once more.
fn compare_given(tally: &mut Tally, lesson: &Lesson, given: u64) {
    let input = || format!("whether {given:#x} fits, composed again, given for {lesson}");
    tally.same(input, true, lesson.takes(given));
}

/// What lies where the seed would come: no seed of the span, or, one time in four, its last one.
fn lying(lesson: &Lesson) -> u64 {
    let far = lesson.far();
    match far % 4 {
        0 => lesson.start + (lesson.count - 1),
        _ => far,
    }
}

/// A lesson over some of these songs, the seed that is given judged once more by itself; what has to be answered.
fn compare(tally: &mut Tally, songs: &Songs, lesson: &Lesson) -> Judged {
    let judged = songs.judge(lesson);
    if let Some(given) = compare_call(tally, lesson, &judged, lying(lesson)) {
        compare_given(tally, lesson, given);
    }
    judged
}

/// A lesson that is refused with no look at a song: with no seed of the span lying where the seed would come, with its
/// first and with its last.
fn compare_refused(tally: &mut Tally, lesson: &Lesson, number: i64) {
    assert_eq!(lesson.sound(), Err(number), "{lesson}");
    let last = lesson.start.wrapping_add(lesson.count).wrapping_sub(1);
    for lying in [lesson.far(), lesson.start, last] {
        compare_call(tally, lesson, &Err(number), lying);
    }
}

/// Another key, another tempo, every other time the one below or above, and another voice.
fn other(draws: &mut Draws, wish: Wish) -> Wish {
    let any_tempo = (u16::from(wish.tempo) + draws.below(254) as u16) % 255;
    let tempo = match draws.below(4) {
        0 => wish.tempo - 1,
        1 => wish.tempo + 1,
        _ => 1 + any_tempo as u8,
    };
    Wish {
        key: (wish.key + 1 + draws.byte_below(11)) % 12,
        tempo,
        voice: (wish.voice + 1 + draws.byte_below(3)) % 4,
    }
}

/// What is wished for over some songs. First what each of them has; then, of one drawn song, one thing alone, two
/// things, two beside the third of another drawn song, and two beside one that it has not; none of its things; and
/// anything.
fn wishes(draws: &mut Draws, songs: &Songs) -> Vec<Wish> {
    let own: Vec<Wish> = songs.traits().iter().map(Traits::wish).collect();
    let (one, another) = (*draws.one_of(&own), *draws.one_of(&own));
    let foreign = other(draws, one);
    let mixed = [
        ANY.mixed(one),
        one.mixed(ANY),
        one.mixed(another),
        one.mixed(foreign),
    ];
    [&own[..], mixed.as_flattened(), &[foreign, ANY]].concat()
}

/// A span that is refused with 10: a count of none or of too many, or seeds past the largest.
fn bad_span(draws: &mut Draws, (start, count): (u64, u64)) -> (u64, u64) {
    match draws.below(4) {
        0 => (start, 0),
        1 => (start, COUNT_MOST + 1 + draws.below(1000) as u64),
        // its low bits are those of the sound count
        2 => (start, count | 1 << (17 + draws.below(47))),
        _ => (u64::MAX - draws.below(count as usize) as u64, count + 1),
    }
}

/// Values out of range, of which some are put into a sound lesson.
fn bad(draws: &mut Draws, lesson: &Lesson) -> Bad {
    Bad {
        style: 2 + draws.byte_below(254),
        span: bad_span(draws, (lesson.start, lesson.count)),
        key: 13 + draws.byte_below(243),
        voice: 4 + draws.byte_below(251),
    }
}

/// How many lessons out of range are tried over a span.
const SPOILED: usize = 3;

/// Wishes over all of these songs, and lessons out of range. Of the seeds that are given one is judged once more.
fn compare_span(tally: &mut Tally, draws: &mut Draws, songs: &Songs) {
    let wishes = wishes(draws, songs);
    // the first wishes are those that a song has, so a seed is given
    let again = draws.below(songs.traits().len());
    for (i, &wish) in wishes.iter().enumerate() {
        let lesson = songs.whole(wish);
        let given = compare_call(tally, &lesson, &songs.judge(&lesson), lying(&lesson));
        if let Some(given) = given.filter(|_| i == again) {
            compare_given(tally, &lesson, given);
        }
    }
    for _ in 0..SPOILED {
        let lesson = songs.whole(*draws.one_of(&wishes));
        let (bad, faults) = (bad(draws, &lesson), 1 + draws.below(15));
        let (lesson, number) = bad.spoiled(lesson, faults);
        compare_refused(tally, &lesson, number);
    }
}

/// The start of a span of so many seeds that has this one, every third time as its first and every third as its last;
/// near the ends of all seeds the span may have to move.
fn start_around(draws: &mut Draws, seed: u64, count: u64) -> u64 {
    let before = match draws.below(3) {
        0 => 0,
        1 => count - 1,
        _ => draws.below(count as usize) as u64,
    };
    seed.saturating_sub(before).min(u64::MAX - (count - 1))
}

/// A span of one to eight seeds that has this one, in both styles.
pub fn compare_seed(tally: &mut Tally, seed: u64) {
    let draws = &mut Draws::of(seed);
    let count = 1 + draws.below(8) as u64;
    let start = start_around(draws, seed, count);
    for style in [0, 1] {
        compare_span(tally, draws, &Songs::of(style, start, count));
    }
}

/// The wish over the places around one whose song has what is wished for, where that seed alone fits, and where none
/// does.
fn compare_narrowed(tally: &mut Tally, songs: &Songs, place: usize, wish: Wish) {
    let (alone, without) = songs.narrowed(place, wish);
    for lesson in alone {
        let judged = compare(tally, songs, &lesson);
        assert_eq!(judged, Ok(vec![songs.seed(place)]), "{lesson}");
    }
    for lesson in without {
        let judged = compare(tally, songs, &lesson);
        assert_eq!(judged, Err(12), "{lesson}");
    }
}

/// How many seeds the span has that is narrowed, and how many wishes it is narrowed for.
const NARROWED: (u64, usize) = (48, 6);

/// A span that has this seed, in one style, narrowed so that one seed alone fits a wish: for what a drawn song has,
/// each of the three left open one time in three.
pub fn compare_made(tally: &mut Tally, seed: u64) {
    let (draws, (count, times)) = (&mut Draws::of(!seed), NARROWED);
    let start = start_around(draws, seed, count);
    let songs = Songs::of(draws.byte_below(2), start, count);
    for _ in 0..times {
        let place = draws.below(count as usize);
        let mut wish = songs.traits()[place].wish();
        for open in 0..3 {
            if draws.below(3) == 0 {
                wish = wish.mixed(ANY)[open];
            }
        }
        compare_narrowed(tally, &songs, place, wish);
    }
}

/// Inputs at the limits, and the seeds of songs that are rare.
pub fn compare_edges(tally: &mut Tally) {
    by_hand::compare_all(tally);
    refusals::compare_all(tally);
    spans::compare_all(tally);
    for seed in songs::RARE {
        compare_seed(tally, seed);
        compare_made(tally, seed);
    }
}
