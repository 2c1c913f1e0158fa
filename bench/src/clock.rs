//! Times: the sides of a case take turns in many short rounds, so that what disturbs the machine disturbs all. A search
//! is set beside so much that its rounds are few and long.

use crate::cases::{Asked, Case, Side};
use std::hint::black_box;
use std::time::Instant;

/// Microseconds for each of the songs.
fn timed(side: &mut Side, songs: &[Asked]) -> f64 {
    if let Some(sheet) = side.at_hand {
        for &a in songs {
            black_box(sheet(a).iter().map(|&byte| u64::from(byte)).sum::<u64>());
        }
    }
    let start = Instant::now();
    for &a in songs {
        black_box((side.run)(black_box(a)));
    }
    start.elapsed().as_secs_f64() * 1e6 / songs.len() as f64
}

/// The value below which this share of them lies.
fn quantile(values: &[f64], share: f64) -> f64 {
    let mut sorted = values.to_vec();
    sorted.sort_by(f64::total_cmp);
    sorted[(share * (sorted.len() - 1) as f64).round() as usize]
}

/// The times of each side, round by round, over all the songs and `passes` times.
fn rounds(case: &mut Case, songs: &[Asked], passes: usize) -> Vec<Vec<f64>> {
    let count = case.sides.len();
    let mut times = vec![Vec::new(); count];
    for side in &mut case.sides {
        timed(side, &songs[..case.batch]);
    }
    let batches = (0..passes).flat_map(|_| songs.chunks_exact(case.batch));
    for (round, batch) in batches.enumerate() {
        for turn in 0..count {
            let i = (round + turn) % count;
            times[i].push(timed(&mut case.sides[i], batch));
        }
    }
    times
}

/// Whose times they are, and the times round by round.
type Rounds<'a> = (&'a str, &'a [f64]);

/// The ratio of the medians, and the quartiles of the rounds' own.
fn ratio((over, overs): Rounds, (under, unders): Rounds) -> String {
    let ratios: Vec<f64> = overs.iter().zip(unders).map(|(o, u)| o / u).collect();
    format!(
        "{over} / {under} {:.2}, quartiles {:.2} and {:.2} of {} rounds",
        quantile(overs, 0.5) / quantile(unders, 0.5),
        quantile(&ratios, 0.25),
        quantile(&ratios, 0.75),
        ratios.len(),
    )
}

/// Prints a case's times, and how the first side's compare with those of each other one.
fn print(mut case: Case, songs: &[Asked], compared: fn(Rounds, Rounds) -> String) {
    // some hundreds of rounds over the 2,000 songs
    let passes = case.batch.div_ceil(4);
    let times = rounds(&mut case, songs, passes);
    let title = case.title(songs[0].style);
    let (first, ours) = (&case.sides[0], &times[0]);
    for (side, theirs) in case.sides.iter().zip(&times).skip(1) {
        println!(
            "{title}: {} {:.2} µs, {} {:.2} µs; {}",
            first.name,
            quantile(ours, 0.5),
            side.name,
            quantile(theirs, 0.5),
            compared((first.name, ours), (side.whose(), theirs)),
        );
    }
}

/// Prints a case's times for the songs, which are of one style, and what share of the others' times the first side
/// takes.
pub fn report(case: Case, songs: &[Asked]) {
    print(case, songs, ratio);
}

/// The same, but how many times as long as the first side the others take, where the share would be next to nothing.
pub fn report_times_as_long(case: Case, songs: &[Asked]) {
    print(case, songs, |first, other| ratio(other, first));
}
