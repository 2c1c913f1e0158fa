//! Measures our static libraries and the Rust on the same songs, our reading of sheets beside composing them, our
//! search for a lesson's seed beside composing each seed, and our lists of halls beside plain C. The Rust's own files
//! stand beside this one when it is compiled (see `run`).
//!
//! `bench times` prints times for songs, `bench readings` those for sheets read back, `bench searches` those for
//! searches, `bench lists` those for lists, `bench stack` the stack that our calls took. `bench sides` says what can be
//! counted, and `bench count CASE SIDE STYLE` does it for a few songs, spans or halls inside `bench_measured`, for a
//! tool that counts instructions.

// the Rust's files are compiled whole, and the driver asks for a part of them
#[allow(dead_code, unused_imports)]
mod compose;
#[allow(dead_code)]
mod dsp;
#[allow(dead_code)]
mod style;
#[allow(dead_code)]
mod synth;

// of the list and the search, our wrapper's C functions alone are asked for: the list's safe call makes a vector
#[allow(dead_code)]
#[path = "wrapper/seqochanu.rs"]
mod seqochanu;

mod cases;
mod clock;
mod searches;
mod stack;
mod sum;
mod writer;

use cases::{Asked, Case, Side};
use std::hint::black_box;

/// How many seeds are timed, how many spans, whose songs take most of a second to compose, and how many of either are
/// counted.
const TIMED: u64 = 2000;
const SPANS: u64 = 11;
const COUNTED: u64 = 20;

fn songs(style: u8, count: u64) -> Vec<Asked> {
    (0..count).map(|i| Asked::new(style, i)).collect()
}

fn times() {
    for style in [0, 1] {
        let songs = songs(style, TIMED);
        for &a in &songs {
            cases::check(a);
        }
        let pages: u64 = songs.iter().map(|a| a.bars).sum();
        println!(
            "style {style}: {TIMED} songs of {:.1} pages",
            pages as f64 / TIMED as f64
        );
        for case in cases::of_songs() {
            clock::report(case, &songs);
        }
    }
}

fn readings() {
    for style in [0, 1] {
        let songs = songs(style, TIMED);
        for &a in &songs {
            cases::check_reading(a);
        }
        let bytes: usize = songs.iter().map(|a| a.sheet.len()).sum();
        println!(
            "style {style}: {TIMED} sheets of {:.0} bytes",
            bytes as f64 / TIMED as f64
        );
        for case in cases::of_readings() {
            clock::report(case, &songs);
        }
    }
}

fn searches() {
    for style in [0, 1] {
        let starts = songs(style, SPANS);
        for &a in &starts {
            searches::check(a);
        }
        for case in searches::of_spans() {
            clock::report_times_as_long(case, &starts);
        }
    }
}

fn lists() {
    let halls = songs(0, TIMED);
    for a in &halls {
        cases::check_list(a.seed);
    }
    for case in cases::of_halls() {
        clock::report(case, &halls);
    }
}

fn cases() -> impl Iterator<Item = Case> {
    let of_sheets = cases::of_songs().into_iter().chain(cases::of_readings());
    of_sheets
        .chain(searches::of_spans())
        .chain(cases::of_halls())
}

/// A line for each thing that can be counted: what `count` is told, then its name.
fn sides() {
    for (i, case) in cases().enumerate() {
        let sides = case.sides.iter().enumerate();
        for (k, side) in sides.filter(|(_, side)| side.counted) {
            for &style in case.styles {
                println!("{i} {k} {style} {}: {}", case.title(style), side.name);
            }
        }
    }
}

/// A page of memory.
#[repr(align(4096))]
struct Page(u8);

#[unsafe(no_mangle)]
#[inline(never)]
fn bench_measured(side: &mut Side, songs: &[Asked]) {
    // the stack below starts where a page does, so that what copies take does not depend on what was called before
    let mut page = Page(0);
    black_box(&mut page.0);
    for &a in songs {
        black_box((side.run)(black_box(a)));
    }
}

fn count(case: usize, side: usize, style: u8) {
    let songs = songs(style, COUNTED);
    let side = &mut cases().nth(case).expect("a case").sides[side];
    // a first run outside, after which nothing is made or looked up once for all
    for &a in &songs {
        black_box((side.run)(a));
    }
    bench_measured(side, &songs);
}

fn main() {
    let words: Vec<String> = std::env::args().skip(1).collect();
    let words: Vec<&str> = words.iter().map(String::as_str).collect();
    let number = |word: &str| word.parse().expect("a whole number");
    match words[..] {
        ["times"] => times(),
        ["readings"] => readings(),
        ["searches"] => searches(),
        ["lists"] => lists(),
        ["sides"] => sides(),
        ["count", case, side, style] => {
            count(number(case), number(side), number(style) as u8);
        }
        ["stack"] => stack::report([songs(0, TIMED), songs(1, TIMED)].concat()),
        _ => panic!("times, readings, searches, lists, sides, count CASE SIDE STYLE, or stack"),
    }
}
