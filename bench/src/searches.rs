//! A search for a lesson's seed that finds none, so that every seed of its span is looked at, beside composing each
//! song of the same span, by our library and by the Rust.

use crate::cases::{Asked, BOTH, Case, Side, side};
use crate::compose::reach::{STYLES, voice_code};
use crate::compose::song::song;
use crate::seqochanu::SPAN_MOST;
use crate::seqochanu::raw::seqochanu_lesson;
use std::hint::black_box;
use std::ops::RangeInclusive;

mod raw {
    #[link(name = "probe", kind = "static")]
    unsafe extern "C" {
        pub fn probe_counters(style: u8, seed: u64, out: *mut u64, len: usize) -> i64;
    }
}

/// Key, tempo and voice: of a song, or as they are wished for.
type Codes = [u8; 3];

/// All three are wished for, and no song is so fast.
const TOO_FAST: Codes = [5, 200, 0];

/// The codes for any.
const ANY: Codes = [12, 0, 255];

/// How many seeds are searched where the Rust's songs are looked at, too.
const CHECKED: u64 = 256;

/// What our call finds among the seeds from the asked one on.
fn search(a: Asked, count: u64, [key, tempo, voice]: Codes) -> Option<u64> {
    let mut seed = 0;
    let answer = unsafe { seqochanu_lesson(a.style, a.seed, count, key, tempo, voice, &mut seed) };
    match answer {
        0 => Some(seed),
        -12 => None,
        _ => panic!("{answer} for {count} seeds from {:#x} on", a.seed),
    }
}

/// The seeds of the longest span.
fn span(a: Asked) -> RangeInclusive<u64> {
    a.seed..=a.seed + (SPAN_MOST - 1)
}

/// Composes each song of the span, without its form. What is asked of it are seven counts of draws; the song is
/// composed whole as long as the compiler has `compose` called for them, which `run` looks up.
fn our_songs(a: Asked) -> u64 {
    let mut counters = [0; 7];
    for seed in span(a) {
        let (out, len) = (counters.as_mut_ptr(), counters.len());
        let answer = unsafe { raw::probe_counters(a.style, seed, out, len) };
        assert_eq!(black_box(answer), 7, "seven counts");
    }
    SPAN_MOST
}

/// The same by the Rust.
fn rust_songs(a: Asked) -> u64 {
    for seed in span(a) {
        black_box(&song(STYLES[usize::from(a.style)], seed));
    }
    SPAN_MOST
}

/// Not counted: so many songs would take long under a tool that counts, and one that is composed and arranged is
/// counted with the songs.
fn composing(name: &'static str, run: fn(Asked) -> u64) -> Side {
    Side {
        counted: false,
        ..side(name, run)
    }
}

pub fn of_spans() -> [Case; 1] {
    let searching = |a| {
        assert_eq!(black_box(search(a, SPAN_MOST, TOO_FAST)), None, "too fast");
        SPAN_MOST
    };
    [Case {
        name: "search of 65,536 seeds",
        styles: BOTH,
        batch: 1,
        sides: vec![
            side("searching", searching),
            composing("composing each", our_songs),
            composing("the Rust composing each", rust_songs),
        ],
    }]
}

/// What the Rust's song of a seed has.
fn had(style: u8, seed: u64) -> Codes {
    let song = song(STYLES[usize::from(style)], seed);
    let voice = voice_code(&song.score) as u8;
    [song.scale[0], song.score.bpm as u8, voice]
}

fn fits(song: &Codes, wishes: &Codes) -> bool {
    (0..3).all(|i| wishes[i] == ANY[i] || wishes[i] == song[i])
}

/// All wishes but those for tempos that are far from the songs' own.
fn wishes() -> impl Iterator<Item = Codes> {
    let tempos = (65..=90).chain([ANY[1]]);
    tempos.flat_map(|tempo| {
        let voices = (0..4).chain([ANY[2]]);
        voices.flat_map(move |voice| (0..=ANY[0]).map(move |key| [key, tempo, voice]))
    })
}

/// Stops where the search that is timed finds a seed, and where one of fewer seeds finds a seed whose song by the Rust
/// has not what is wished for, or finds none where there is one.
pub fn check(a: Asked) {
    let what = format!("from {:#x} on in style {}", a.seed, a.style);
    assert_eq!(search(a, SPAN_MOST, TOO_FAST), None, "{what}");
    let songs: Vec<Codes> = (0..CHECKED).map(|i| had(a.style, a.seed + i)).collect();
    for wishes in wishes() {
        let right = match search(a, CHECKED, wishes) {
            Some(seed) => fits(&songs[(seed - a.seed) as usize], &wishes),
            None => !songs.iter().any(|song| fits(song, &wishes)),
        };
        assert!(right, "{wishes:?} {what}");
    }
}
