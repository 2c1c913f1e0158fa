//! The forms: a seed's own, the same without a beat, and what seeds' forms span.

use crate::compose::reach::form::{dips, intro_code, outro_code, phrases, plays_at};
use crate::compose::{Form, arrange, spans_a_form};
use crate::draws::{around, seed_with};
use crate::ours;
use crate::tally::Tally;

/// A form in words: eight numbers of a byte each, then the plays of its bars, four bits a bar.
pub type Words = [u64; 5];

/// What the first word's bytes say.
const NUMBERS: [&str; 8] = [
    "intro code",
    "intro bars",
    "phrases",
    "outro code",
    "outro bars",
    "dip",
    "bar count",
    "lead-in",
];

/// For each of the 29 draws a number of equal parts of the unit's range, at whose ends lie the bounds
/// that the draw is held to.
const DIVIDED: [u64; 29] = [
    90, 20, 3, 10, 20, 20, 20, // up to `cutting`
    20, 100, 20, 20, 100, 20, 20, 100, 20, 20, 100, 20, 20, 100, 20, 20, 100, 20, // the cuts
    20, 20, 95, 20, // the late bass drop, the dip, the outro
];

/// The words of a form whose bars play `plays`.
pub fn words_by(form: &Form, plays: impl Fn(usize) -> u64) -> Words {
    let byte = |n: usize| u8::try_from(n).expect("each number of a form is a byte");
    let numbers = [
        intro_code(form),
        byte(form.intro()),
        byte(phrases(form)),
        outro_code(form),
        byte(form.outro()),
        dips(form).into(),
        byte(form.bars()),
        byte(form.lead_in()),
    ];
    let mut words = [u64::from_be_bytes(numbers), 0, 0, 0, 0];
    for bar in 0..64 {
        let word = &mut words[1 + bar / 16];
        *word = *word << 4 | plays(bar);
    }
    words
}

/// The form's words, silent past its end.
pub fn words_of(form: &Form) -> Words {
    words_by(form, |bar| plays_at(form, bar))
}

pub fn our_words(word: impl Fn(u8) -> u64) -> Words {
    [0, 1, 2, 3, 4].map(word)
}

/// Two forms, part by part and bar by bar.
pub fn same_form(tally: &mut Tally, what: impl Fn() -> String, rust: Words, ours: Words) {
    for (i, name) in NUMBERS.iter().enumerate() {
        let number = |words: Words| words[0].to_be_bytes()[i];
        let input = || format!("{name} of {}", what());
        tally.same(input, number(rust), number(ours));
    }
    for bar in 0..64 {
        let plays = |words: Words| words[1 + bar / 16] >> (60 - bar % 16 * 4) & 15;
        let input = || format!("plays in bar {bar} of {}", what());
        tally.same(input, plays(rust), plays(ours));
    }
}

fn compare_form(tally: &mut Tally, seed: u64, form: &Form) {
    let ours = our_words(|k| ours::form(seed, k));
    let what = || format!("the form of {seed:#x}");
    same_form(tally, what, words_of(form), ours);
}

fn compare_beatless(tally: &mut Tally, seed: u64, form: Form) {
    let ours = our_words(|k| ours::beatless(seed, k));
    let what = || format!("the beatless form of {seed:#x}");
    same_form(tally, what, words_of(&form.beatless()), ours);
    let input = || format!("the refusal of {}", what());
    tally.same(input, 0, ours::beatless(seed, 5));
}

/// Document 01's number of what the Rust says.
fn spans_number(forms: &[Form]) -> u8 {
    match spans_a_form(forms) {
        Ok(()) => 0,
        Err(why) if why.starts_with("no song mutes") => 1,
        Err(why) if why.starts_with("no song fades") => 2,
        Err(why) => panic!("the Rust says nothing else: {why}"),
    }
}

/// Lists of no seed, of this one, and of this one with one and two others.
fn compare_spans(tally: &mut Tally, seed: u64) {
    let seeds = [seed, seed.wrapping_add(1), seed.rotate_left(32)];
    let forms = seeds.map(arrange);
    for n in 0..=3 {
        let input = || format!("spans of the seeds {:x?}", &seeds[..n]);
        let ours = ours::spans(&seeds[..n]);
        tally.same(input, spans_number(&forms[..n]), ours);
    }
}

/// All that is asked of one song seed's form.
pub fn compare_seed(tally: &mut Tally, seed: u64) {
    let form = arrange(seed);
    compare_form(tally, seed, &form);
    compare_beatless(tally, seed, form);
    compare_spans(tally, seed);
    // `arrange` keeps its stream to itself, so document 01's number alone judges the counter
    let input = || format!("the counter after the form of {seed:#x}");
    tally.same(input, 29, ours::form_counter(seed));
}

/// Inputs at the limits: words that no form has, and draws around each bound, eight forms for each,
/// which differ in the other draws.
pub fn compare_edges(tally: &mut Tally) {
    for k in 5..=255u8 {
        tally.same(|| format!("word {k} of a form"), 0, ours::form(1, k));
    }
    for k in 6..=255u8 {
        let input = || format!("word {k} of a beatless form");
        tally.same(input, 0, ours::beatless(1, k));
    }
    for (n, parts) in (1..).zip(DIVIDED) {
        for k in (0..=parts).flat_map(|part| around(part, parts)) {
            for low in 0..8 {
                let seed = seed_with(0, n, k << 40 | low);
                compare_form(tally, seed, &arrange(seed));
            }
        }
    }
}
