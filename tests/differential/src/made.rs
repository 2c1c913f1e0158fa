//! Forms of other parts than were drawn, also malformed ones.

use crate::compose::reach::form::{Parts, bars_of, made, plays_at};
use crate::compose::{Form, arrange};
use crate::dsp::reach::{next_u64, stream};
use crate::forms::{our_words, same_form, words_by, words_of};
use crate::ours;
use crate::tally::Tally;

/// Forms that document 01 has no refusal for.
fn compare_sound(tally: &mut Tally, seed: u64, from: &Form, parts: Parts) {
    let form = made(from, parts);
    let (bars, count) = (form.bars(), form.bars() as u8);
    let what = || format!("{parts:?} over the form of {seed:#x}");
    let input = |bar: u64| move || format!("plays in bar {bar} of {}", what());
    for bar in 0..bars {
        let ours = ours::made_plays(seed, parts, count, bar as u64);
        tally.same(input(bar as u64), plays_at(&form, bar) as i64, ours);
    }
    let past = [bars as u64, 64, 255, 256, 1 << 32, u64::MAX];
    for bar in past.into_iter().filter(|&bar| bar >= bars as u64) {
        let ours = ours::made_plays(seed, parts, count, bar);
        tally.same(input(bar), -3, ours);
    }
    let form = form.beatless();
    // past its end the array keeps what stood there
    let rust = words_by(&form, |bar| {
        plays_at(if bar < bars { &form } else { from }, bar)
    });
    let ours = our_words(|k| ours::made_beatless(seed, parts, count, k));
    same_form(tally, || format!("the beatless {}", what()), rust, ours);
    let input = || format!("the refusal of the beatless {}", what());
    tally.same(input, 0, ours::made_beatless(seed, parts, count, 5));
}

/// Forms that are said to have `count` bars and that document 01 refuses; the Rust has none such. The
/// plays that were lent come back.
fn compare_malformed(tally: &mut Tally, seed: u64, from: &Form, parts: Parts, count: u8) {
    let what = || format!("{parts:?} and {count} bars over the form of {seed:#x}");
    let last = u64::from(count.saturating_sub(1));
    for bar in [0, last, count.into(), u64::MAX] {
        let input = || format!("plays in bar {bar} of {}", what());
        let ours = ours::made_plays(seed, parts, count, bar);
        tally.same(input, -4, ours);
    }
    let input = || format!("the refusal of the beatless {}", what());
    tally.same(input, 4, ours::made_beatless(seed, parts, count, 5));
    for (k, word) in (0..).zip(words_of(from)).skip(1) {
        let input = || format!("word {k} of the refused {}", what());
        let ours = ours::made_beatless(seed, parts, count, k);
        tally.same(input, word, ours);
    }
}

/// Forms of these parts with the plays of the seed's form.
fn compare_parts(tally: &mut Tally, seed: u64, from: &Form, parts: Parts) {
    let bars = bars_of(parts);
    if bars <= 64 {
        compare_sound(tally, seed, from, parts);
    }
    let counts = [bars, bars + 1, bars + 255, 0, 64, 255].map(|n| n as u8);
    for count in counts {
        if bars > 64 || bars != count.into() {
            compare_malformed(tally, seed, from, parts, count);
        }
    }
}

/// Forms of parts that the seed decides.
pub fn compare_seed(tally: &mut Tally, seed: u64) {
    let [intro, phrases, outro, dip, ..] = next_u64(&mut stream(seed, 0)).to_be_bytes();
    let parts = Parts {
        intro: intro % 8,
        phrases: phrases % 9,
        outro: outro % 9,
        dip: dip % 2 == 1,
    };
    compare_parts(tally, seed, &arrange(seed), parts);
}

/// Every intro, outro and number of phrases over the form of one seed.
fn compare_all(tally: &mut Tally, seed: u64) {
    let from = arrange(seed);
    for phrases in 0..=255u8 {
        // 7 and 8 are the first numbers of no intro and of no outro
        for (intro, outro) in (0..=7).flat_map(|i| (0..=8).map(move |o| (i, o))) {
            let parts = Parts {
                intro,
                phrases,
                outro,
                dip: phrases % 2 == 1,
            };
            compare_parts(tally, seed, &from, parts);
        }
    }
}

/// All parts, over the forms of two seeds.
pub fn compare_edges(tally: &mut Tally) {
    for seed in [1, u64::MAX] {
        compare_all(tally, seed);
    }
}
