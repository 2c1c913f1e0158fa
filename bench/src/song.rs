//! A child of the Rust's compose.rs: a song with what its sheet shows beside the score.

use super::{DrumKind, Hit, Note, Score};
use crate::style::Style;

/// The most notes that the lead has, and the role that stands for all of theirs.
const LEAD_MOST: usize = 56;
const STAND_IN: u8 = 4;

/// A score, the scale that the lead sings, which `compose` drops, and the numbers of the lead notes' roles.
pub(crate) struct Song {
    pub(crate) score: Score,
    pub(crate) scale: Vec<u8>,
    pub(crate) roles: [u8; LEAD_MOST],
}

/// The Rust's `melody` works a role out for each note and drops it, so all are given the same one here. What the
/// Rust's side saves by that is to keep a byte for each lead note.
pub(crate) fn song(style: &'static Style, seed: u64) -> Song {
    let (score, harmony) = super::composed(style, seed);
    Song {
        score,
        scale: harmony.melody_pcs,
        roles: [STAND_IN; LEAD_MOST],
    }
}

/// The loop bar of a note, which the Rust does not keep: each starts at least 10 ms into its bar and well before
/// the next one, so its time tells. `bars` is how many bars a second has.
pub(crate) fn note_bar(note: &Note, bars: f32) -> u8 {
    (note.at * bars) as u8
}

/// The loop bars of the hits, in their order: a bar has kicks, then other drums, so a kick after another drum
/// starts the next one. A hat may sound before its bar, so its time does not tell.
pub(crate) struct HitBars {
    bar: u8,
    kicking: bool,
}

impl HitBars {
    pub(crate) fn new() -> Self {
        Self {
            bar: 0,
            kicking: true,
        }
    }

    pub(crate) fn next(&mut self, hit: &Hit) -> u8 {
        let kick = hit.kind == DrumKind::Kick;
        self.bar += u8::from(kick && !self.kicking);
        self.kicking = kick;
        self.bar
    }
}
