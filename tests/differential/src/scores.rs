//! The scores: a seed's own in both styles, the same without its drums, its kicks, and the counters.

use crate::compose::reach::{STYLES, Take, kicks, take};
use crate::draws::{around, seed_with};
use crate::ours;
use crate::songs;
use crate::tally::Tally;
use crate::words::{KICK_WORDS, WORDS, kick_name, kick_words, word_name, words_of};

/// Draws that decide by the end of one of the unit's equal parts: the stage by its place, the draw's
/// number, how many parts.
const DIVIDED: [(usize, u64, u64); 12] = [
    (1, 1, 50), // a major loop, by 0.8 or 0.42
    (1, 2, 16), // the loop
    (1, 2, 15),
    (1, 3, 12), // the key
    (2, 1, 24), // the tempo's halves, from 70.5 and from 73.5 on
    (2, 1, 8),
    (3, 1, 20), // the lead's first rest or note
    (3, 2, 20),
    (4, 1, 20), // sleep's first stroke of the keys
    (5, 1, 4),  // hiphop's groove
    (5, 2, 20), // sleep's first hat
    (7, 1, 20), // the voice
];

/// Draws that decide by one part of many: the chances that the bass's root falls on steps 0, 1 and 2,
/// each over what is left of the first beat's.
const ROOTS: [(u64, u64, u64); 3] = [(1, 392, 851), (2, 226, 459), (3, 122, 233)];

/// The take with its drums gone, as the Rust's `unbeaten` has it.
pub fn unbeaten(mut take: Take) -> Take {
    take.score = take.score.unbeaten();
    take.bars.hits.truncate(take.score.drums.len());
    take
}

/// What one of our functions writes into `count` places.
pub fn our_words(count: usize, fill: impl FnOnce(&mut [u64])) -> Vec<u64> {
    let mut words = vec![u64::MAX; count];
    fill(&mut words);
    words
}

/// The counters of the seven streams, into buffers of 7 places, fewer and more; or document 01's refusal.
fn compare_counters(tally: &mut Tally, style: u8, seed: u64, rust: Result<[u64; 7], i64>) {
    for places in [7, 6, 0, 9] {
        let mut wanted = vec![u64::MAX; places];
        let answer = match rust {
            Err(number) => -number,
            Ok(_) if places < 7 => -2,
            Ok(counters) => {
                wanted[..7].copy_from_slice(&counters);
                7
            }
        };
        let mut ours = vec![u64::MAX; places];
        let what = || format!("the counters of {seed:#x} in style {style}, {places} places");
        tally.same(what, answer, ours::counters(style, seed, &mut ours));
        tally.same_words(what, |k| format!("word {k}"), &wanted, &ours);
    }
}

/// The seed's song in a style.
fn compare_song(tally: &mut Tally, style: u8, seed: u64) {
    let song = || format!("the song of {seed:#x} in style {style}");
    let take = take(STYLES[usize::from(style)], seed);
    let ours = our_words(WORDS, |out| ours::score(style, seed, out));
    tally.same_words(song, word_name, &words_of(style, &take), &ours);
    let rust = kick_words(&kicks(&take.score.drums));
    let ours = our_words(KICK_WORDS, |out| ours::kicks(style, seed, out));
    tally.same_words(
        || format!("the kicks of {}", song()),
        kick_name,
        &rust,
        &ours,
    );
    compare_counters(tally, style, seed, Ok(take.counters));
    let rust = words_of(style, &unbeaten(take));
    let ours = our_words(WORDS, |out| ours::unbeaten(style, seed, out));
    tally.same_words(|| format!("{} unbeaten", song()), word_name, &rust, &ours);
}

/// All that is asked of one seed's songs.
pub fn compare_seed(tally: &mut Tally, seed: u64) {
    for style in [0, 1] {
        compare_song(tally, style, seed);
    }
}

/// Styles that are none: document 01's refusal 1, beside a score of zeros.
fn compare_refused(tally: &mut Tally, style: u8, seed: u64) {
    let mut refused = vec![0; WORDS];
    refused[0] = 1;
    let what = || format!("the song of {seed:#x} in style {style}");
    let ours = our_words(WORDS, |out| ours::score(style, seed, out));
    tally.same_words(what, word_name, &refused, &ours);
    compare_counters(tally, style, seed, Err(1));
}

/// Buffers with no place, with fewer than a song's words, and with more.
fn compare_buffers(tally: &mut Tally) {
    let seed = 1;
    let mut rust = words_of(1, &take(STYLES[1], seed));
    rust.resize(2 * WORDS, 0);
    for count in [0, 1, 61, 62, 63, WORDS - 1, WORDS + 1, 2 * WORDS] {
        let what = || format!("the song of {seed:#x} in style 1, {count} places");
        let ours = our_words(count, |out| ours::score(1, seed, out));
        tally.same_words(what, word_name, &rust[..count], &ours);
    }
}

/// Inputs at the limits: no style, other buffers, draws around each bound, and songs that are rare.
pub fn compare_edges(tally: &mut Tally) {
    for style in 2..=255 {
        for seed in [0, 1, u64::MAX] {
            compare_refused(tally, style, seed);
        }
    }
    compare_buffers(tally);
    for (stage, n, parts) in DIVIDED {
        for k in (0..=parts).flat_map(|part| around(part, parts)) {
            compare_seed(tally, seed_with(stage, n, k << 40));
        }
    }
    for (n, part, parts) in ROOTS {
        for k in around(part, parts) {
            // the other draws differ, and so whether the steps before fail
            for low in 0..8 {
                compare_seed(tally, seed_with(6, n, k << 40 | low));
            }
        }
    }
    for seed in songs::RARE {
        compare_seed(tally, seed);
    }
}
