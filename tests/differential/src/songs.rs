//! The seeds whose songs are recorded: among them is each thing that `shown` names.

use crate::compose::arrange;
use crate::compose::reach::{STAGES, STYLES, pick, stated, take, tempo_drawn, voice_code};
use crate::draws::seed_with;
use crate::early;
use std::collections::BTreeSet;

/// Songs that are rare, two of each, found by trying seeds one by one: a hiphop statement that falls
/// back, 98 hits, and a sleep song with no keys.
pub const RARE: [u64; 6] = [
    0x5f2d9,
    0x9d3b_b000_0000_0000,
    0x61f7,
    0x1e7e8,
    0xad9,
    0xca8c,
];

/// How many things songs can show: 31 loops, 12 keys, 18 tempos, 4 grooves, 5 voices; in each style a
/// statement that falls back, an empty first and last bar of the lead, a tempo drawn at an exact half, and
/// the six roles of lead notes; in hiphop 98 hits and the six of early.rs, and in sleep no keys.
const THINGS: usize = 98;

/// What the song of this seed shows.
fn shown(style: usize, seed: u64) -> Vec<String> {
    let take = take(STYLES[style], seed);
    let (score, key) = (&take.score, take.scale[0]);
    let degrees = take.roots.map(|root| (root + 12 - key) % 12);
    let mut all = vec![
        format!("key {key}"),
        format!("a loop on {degrees:?} in {} classes", take.scale.len()),
        format!("style {style} at {} beats a minute", score.bpm),
        format!("style {style} sung by {}", voice_code(score)),
    ];
    if style == 0 {
        let groove = pick(&mut STAGES[5].stream(seed), 4);
        all.push(format!("groove {groove}"));
    }
    let half = tempo_drawn(STYLES[style], seed).fract() == 0.5;
    let rare = [
        (half, "draws its tempo at a half"),
        (stated(STYLES[style], seed) < 2, "falls back"),
        (!take.bars.lead.contains(&0), "has an empty first bar"),
        (!take.bars.lead.contains(&7), "has an empty last bar"),
        (score.drums.len() == 98, "has 98 hits"),
        (score.keys.is_empty(), "has no keys"),
    ];
    for (_, what) in rare.into_iter().filter(|(is, _)| *is) {
        all.push(format!("style {style} {what}"));
    }
    for role in &take.roles {
        all.push(format!("style {style} has a lead note of role {role}"));
    }
    for what in early::firsts(&take, &arrange(seed)).into_keys() {
        all.push(format!("style {style} {what}"));
    }
    all
}

/// A seed whose tempo's unit is an eighth, which is a half in both styles.
fn at_a_half() -> u64 {
    seed_with(2, 1, 1 << 61)
}

pub fn seeds() -> Vec<u64> {
    let mut things = BTreeSet::new();
    let mut kept = Vec::new();
    let chosen = RARE.into_iter().chain([at_a_half()]);
    for seed in chosen.chain((0..10_000).map(crate::seed_of)) {
        let all = [0, 1].map(|style| shown(style, seed)).concat();
        let before = things.len();
        things.extend(all);
        if things.len() > before {
            kept.push(seed);
        }
    }
    assert_eq!(things.len(), THINGS, "each thing is shown");
    kept
}
