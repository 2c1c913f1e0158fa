//! Kicks of hits that no draw need give, with odd times.

use crate::compose::reach::{Hit, hit, kicks};
use crate::dsp::reach::{next_u64, stream};
use crate::ours;
use crate::scores::our_words;
use crate::tally::Tally;
use crate::words::{KICK_WORDS, kick_name, kick_words};

/// The bits of odd times: zeros, infinities, the largest and smallest of both signs, subnormals, and
/// the one NaN that both sides know. The logic has no other, so no other is asked.
const ODD: [u32; 16] = [
    0,
    0x8000_0000,
    0x3f80_0000,
    0xbf80_0000,
    0x7f80_0000,
    0xff80_0000,
    0x7f7f_ffff,
    0xff7f_ffff,
    0x0080_0000,
    0x8080_0000,
    0x007f_ffff,
    0x807f_ffff,
    0x0000_0001,
    0x8000_0001,
    0x7fc0_0000,
    0x7fc0_0000,
];

/// A time's bits and a drum from a draw: every other time is an odd one, and most are kicks.
fn drawn(z: u64) -> (u32, u64) {
    let [odd, pick, kind, ..] = z.to_be_bytes();
    let bits = if odd % 2 == 0 {
        ODD[usize::from(pick) % ODD.len()]
    } else if f32::from_bits(z as u32).is_nan() {
        0x7fc0_0000
    } else {
        z as u32
    };
    (bits, u64::from(kind % 7).saturating_sub(3))
}

/// The words of a count and of these hits.
fn made_words(count: u64, hits: &[(u32, u64)]) -> Vec<u64> {
    let mut words = vec![count];
    words.extend(hits.iter().flat_map(|&(bits, kind)| [bits.into(), kind]));
    words
}

/// The kicks of the first `count` of these 98 hits; document 01 refuses a count above 98.
fn compare_made(tally: &mut Tally, seed: u64, count: u64, made: &[(u32, u64)]) {
    let rust = match made.get(..count as usize) {
        Some(first) => {
            let hits: Vec<Hit> = (first.iter())
                .map(|&(bits, kind)| hit(f32::from_bits(bits), kind))
                .collect();
            kick_words(&kicks(&hits))
        }
        None => [vec![4], vec![0; KICK_WORDS - 1]].concat(),
    };
    let words = made_words(count, made);
    let ours = our_words(KICK_WORDS, |out| ours::made_kicks(&words, out));
    let what = || format!("the kicks of the first {count} hits made from {seed:#x}");
    tally.same_words(what, kick_name, &rust, &ours);
}

/// Hits that the seed decides, and counts of them.
pub fn compare_seed(tally: &mut Tally, seed: u64) {
    let mut s = stream(seed, 0);
    let made: Vec<_> = (0..98).map(|_| drawn(next_u64(&mut s))).collect();
    for count in [0, 1, 2, 12, 97, 98, 99, 256, 1 << 32, u64::MAX] {
        compare_made(tally, seed, count, &made);
    }
}

/// Words that are missing, which stand for kicks at 0, and drums of no number, which are kicks.
pub fn compare_edges(tally: &mut Tally) {
    let ours = |words: &[u64]| our_words(KICK_WORDS + 2, |out| ours::made_kicks(words, out));
    let padded = |times: &[f32]| [kick_words(times), vec![0; 2]].concat();
    let cases = [
        (vec![], vec![]),
        (vec![3], vec![0.0; 3]),
        (vec![2, 0x3f80_0000, 9], vec![0.0, 1.0]),
        (vec![2, 0xdead_0000_bf80_0000], vec![-1.0, 0.0]),
    ];
    for (words, times) in cases {
        let what = || format!("the kicks of the words {words:x?}");
        tally.same_words(what, kick_name, &padded(&times), &ours(&words));
    }
}
