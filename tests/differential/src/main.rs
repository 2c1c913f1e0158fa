//! Feeds the Rust and our static libraries the same inputs and compares every value.
//!
//! `differential PAPER HALL COUNT START` compares over COUNT seeds, and what our programs at the paths PAPER and
//! HALL write; `differential --record DIR` writes a sample of the Rust's answers. The Rust's own files stand
//! beside this one when it is compiled (see `run`).

// the Rust's files are compiled whole, and the driver asks for a part of them
#[allow(dead_code, unused_imports)]
mod compose;
#[allow(dead_code)]
mod dsp;
#[allow(dead_code)]
mod style;
#[allow(dead_code)]
mod synth;

// our library's own wrapper, of which the driver asks for the C functions
#[allow(dead_code)]
#[path = "wrapper/seqochanu.rs"]
mod seqochanu;

mod bytes;
mod calls;
mod convert;
mod draws;
mod early;
mod edition;
mod forms;
mod halls;
mod hits;
mod lessons;
mod made;
mod ours;
mod pages;
mod program;
mod record;
mod reread;
mod sample;
mod scores;
mod songs;
mod tally;
mod words;

use tally::Tally;

/// Seed `i` of a run: even ones as they are, odd ones with their bits reversed, so that high seeds
/// are tried too.
fn seed_of(i: u64) -> u64 {
    if i % 2 == 0 { i } else { i.reverse_bits() }
}

/// Compares every stage over the seeds `from..to` of the run.
fn compare(from: u64, to: u64) -> Tally {
    let mut tally = Tally::default();
    for i in from..to {
        let seed = seed_of(i);
        draws::compare_seed(&mut tally, seed);
        forms::compare_seed(&mut tally, seed);
        scores::compare_seed(&mut tally, seed);
        pages::compare_seed(&mut tally, seed);
        halls::compare_seed(&mut tally, seed);
        reread::compare_seed(&mut tally, seed);
        convert::compare_seed(&mut tally, seed);
        lessons::compare_seed(&mut tally, seed);
        if i % 15 == 0 {
            made::compare_seed(&mut tally, seed);
            hits::compare_seed(&mut tally, seed);
            halls::compare_longest(&mut tally, seed);
            reread::compare_made(&mut tally, seed);
            convert::compare_made(&mut tally, seed);
            lessons::compare_made(&mut tally, seed);
        }
    }
    tally
}

/// The run in two halves, each on a thread of its own.
fn compare_all(start: u64, count: u64) -> Tally {
    let end = start
        .checked_add(count)
        .expect("a run that ends by the largest number");
    let half = start + count / 2;
    std::thread::scope(|scope| {
        let other = scope.spawn(move || compare(half, end));
        compare(start, half).join(other.join().expect("the second half ended"))
    })
}

fn number(word: Option<&String>, otherwise: u64) -> u64 {
    word.map_or(otherwise, |w| w.parse().expect("a whole number"))
}

fn main() {
    let words: Vec<String> = std::env::args().skip(1).collect();
    if words.first().is_some_and(|w| w == "--record") {
        return record::write(words.get(1).expect("a folder to write to"));
    }
    let [paper, hall, rest @ ..] = &words[..] else {
        panic!("the paths of our two programs");
    };
    let (count, start) = (number(rest.first(), 100_000), number(rest.get(1), 0));
    let mut edges = Tally::default();
    draws::compare_edges(&mut edges);
    forms::compare_edges(&mut edges);
    made::compare_edges(&mut edges);
    scores::compare_edges(&mut edges);
    hits::compare_edges(&mut edges);
    pages::compare_edges(&mut edges);
    halls::compare_edges(&mut edges);
    reread::compare_edges(&mut edges);
    convert::compare_edges(&mut edges);
    lessons::compare_edges(&mut edges);
    program::paper::compare_edges(&mut edges, paper);
    program::hall::compare_edges(&mut edges, hall);
    let all = edges.join(compare_all(start, count));
    let (values, sheet, page, roles) = (all.compared, all.sheet, all.page, all.roles);
    println!(
        "the longest sheet has {} bytes, that of {}",
        sheet.bytes, sheet.of
    );
    println!(
        "the longest page has {} bytes, that of {}",
        page.bytes, page.of
    );
    println!("lead notes by their roles, from 0 on: {roles:?}");
    println!("{count} seeds from {start}: {values} values compared, no difference");
}
