//! The draws: stage seeds, words, units, picks, chances, coins.

use crate::compose::reach::{STAGES, chance, coin, pick};
use crate::dsp::reach::{counter_of, next_u64, seed_of, stream};
use crate::ours;
use crate::tally::{Run, Tally};
use std::ops::RangeInclusive;

/// How many draws of each stage's stream are compared.
const DRAWS: usize = 300;

/// Chances that are tried: the ends, values inside, and values that no style has.
const CHANCES: [f32; 10] = [
    0.0,
    -0.0,
    0.25,
    0.5,
    0.8,
    1.0,
    -1.0,
    f32::NAN,
    f32::INFINITY,
    f32::MIN_POSITIVE,
];

/// What `draw` gives of the Rust's stream, `count` times.
fn rust_run(
    seed: u64,
    counter: u64,
    count: usize,
    mut draw: impl FnMut(&mut crate::dsp::NoiseStream) -> u64,
) -> Run {
    let mut s = stream(seed, counter);
    let values = (0..count).map(|_| draw(&mut s)).collect();
    Run {
        values,
        counter: counter_of(&s),
    }
}

/// What one of our functions writes into `count` places.
fn our_run(count: usize, fill: impl FnOnce(&mut [u64]) -> u64) -> Run {
    let mut values = vec![u64::MAX; count];
    let counter = fill(&mut values);
    Run { values, counter }
}

/// Words and units of the stream with this seed, from this counter on.
fn compare_stream(tally: &mut Tally, seed: u64, counter: u64, count: usize) {
    let input = |what: &str| format!("{what} of the stream {seed:#x} from counter {counter}");
    let rust = rust_run(seed, counter, count, next_u64);
    let ours = our_run(count, |out| ours::words(seed, counter, out));
    tally.same_run(|| input("words"), &rust, &ours);
    let rust = rust_run(seed, counter, count, |s| s.unit().to_bits().into());
    let ours = our_run(count, |out| ours::units(seed, counter, out));
    tally.same_run(|| input("units' bits"), &rust, &ours);
}

/// One pick of `n` from the stream with this seed and counter.
fn compare_pick(tally: &mut Tally, seed: u64, counter: u64, n: u8) {
    let input = || format!("pick of {n} from the stream {seed:#x} at counter {counter}");
    let rust = rust_run(seed, counter, 1, |s| pick(s, n.into()) as u64);
    let ours = our_run(1, |out| ours::picks(seed, counter, n, out));
    tally.same_run(input, &rust, &ours);
}

/// Chances and coins of the stream with this seed.
fn compare_chances(tally: &mut Tally, seed: u64) {
    for p in CHANCES {
        let rust = rust_run(seed, 0, 4, |s| chance(s, p).into());
        let ours = our_run(4, |out| ours::chances(seed, 0, p, out));
        tally.same_run(
            || format!("chances of {p} from the stream {seed:#x}"),
            &rust,
            &ours,
        );
    }
    let rust = rust_run(seed, 0, 16, |s| coin(s).into());
    let ours = our_run(16, |out| ours::coins(seed, 0, out));
    tally.same_run(|| format!("coins from the stream {seed:#x}"), &rust, &ours);
}

/// All that is drawn for one song seed.
pub fn compare_seed(tally: &mut Tally, seed: u64) {
    for (id, stage) in (1u8..).zip(STAGES) {
        let theirs = seed_of(&stage.stream(seed));
        let mut out = [0u64];
        let answer = ours::stage_seed(id, seed, &mut out);
        let input = || format!("stage {id}'s seed of {seed:#x}");
        tally.same(input, (1, theirs), (answer, out[0]));
        compare_stream(tally, theirs, 0, DRAWS);
    }
    for n in 0..=255u8 {
        compare_pick(tally, seed, n.into(), n);
    }
    compare_chances(tally, seed);
}

/// Truncation of values all over the range of an f32, NaNs and infinities included.
fn compare_truncation(tally: &mut Tally) {
    for bits in (0..=u32::MAX)
        .step_by(65_521)
        .chain([0x7f80_0000, 0xff80_0000])
    {
        let x = f32::from_bits(bits);
        let input = || format!("truncation of the f32 with bits {bits:#x}");
        tally.same(input, x as u64, ours::truncated(x));
    }
}

/// SplitMix64's step from one draw to the next.
const GAMMA: u64 = 0x9e37_79b9_7f4a_7c15;

/// The inverse of `dsp.rs`'s mixer: what it mixes to `z`.
fn unmixed(z: u64) -> u64 {
    let unshifted = |z: u64, k: u32| (0..64 / k).fold(z, |x, _| z ^ (x >> k));
    // Newton's step doubles the right low bits of an odd number's inverse
    let inverse = |m: u64| {
        (0..6).fold(m, |x, _| {
            x.wrapping_mul(2u64.wrapping_sub(m.wrapping_mul(x)))
        })
    };
    let z = unshifted(z, 31).wrapping_mul(inverse(0x94d0_49bb_1331_11eb));
    let z = unshifted(z, 27).wrapping_mul(inverse(0xbf58_476d_1ce4_e5b9));
    unshifted(z, 30)
}

/// A stream whose first draw has the top 24 bits `k`.
pub fn stream_with(k: u64) -> u64 {
    unmixed(k << 40).wrapping_sub(GAMMA)
}

/// A song seed whose stage has `z` as its draw n: the Rust's way from the seed to the draw, backwards.
pub fn seed_with(stage: usize, n: u64, z: u64) -> u64 {
    let id = stage as u64 + 1;
    let theirs = unmixed(z).wrapping_sub(n.wrapping_mul(GAMMA));
    let seed = unmixed(unmixed(theirs).wrapping_sub(id.wrapping_mul(GAMMA)));
    let drawn = next_u64(&mut stream(seed_of(&STAGES[stage].stream(seed)), n - 1));
    assert_eq!(drawn, z, "the way was gone backwards");
    seed
}

/// The draws within two steps of the end of one of the unit's equal parts, by their top 24 bits.
pub fn around(part: u64, parts: u64) -> RangeInclusive<u64> {
    let edge = (part << 24) / parts.max(1);
    edge.saturating_sub(2)..=(edge + 2).min((1 << 24) - 1)
}

/// Inputs at the limits: the counter where it wraps, floats of every size, stages that are none, buffers
/// with no place or more than one, and picks around the ends of each part.
pub fn compare_edges(tally: &mut Tally) {
    compare_stream(tally, 7, u64::MAX - 3, 8);
    compare_truncation(tally);
    for stage in (0..=255u8).filter(|s| !(1..=8).contains(s)) {
        let mut out = [5u64; 2];
        let answer = ours::stage_seed(stage, 1, &mut out);
        tally.same(|| format!("stage {stage}"), (-16, [5, 5]), (answer, out));
    }
    for (id, stage) in (1u8..).zip(STAGES) {
        tally.same(
            || format!("stage {id}, no place"),
            -2,
            ours::stage_seed(id, 1, &mut []),
        );
        let mut out = [5u64; 3];
        let answer = ours::stage_seed(id, 1, &mut out);
        let wanted = [seed_of(&stage.stream(1)), 5, 5];
        tally.same(
            || format!("stage {id}, three places"),
            (1, wanted),
            (answer, out),
        );
    }
    for n in 0..=255u8 {
        for part in 0..=u64::from(n) {
            for k in around(part, n.into()) {
                let seed = stream_with(k);
                assert_eq!(
                    next_u64(&mut stream(seed, 0)) >> 40,
                    k,
                    "the mixer was inverted"
                );
                compare_pick(tally, seed, 0, n);
            }
        }
    }
}
