//! A seed for a lesson: the wishes, and the search for a seed whose song has them.

use super::{Refusal, Style, Voice, raw, refusal};
use std::num::NonZeroU8;

/// The codes by which the C function is told that any will do.
const ANY_KEY: u8 = 12;
const ANY_TEMPO: u8 = 0;
const ANY_VOICE: u8 = 255;

/// A song's key, the first entry of its scale: 0 for C up to 11 for B.
#[derive(Clone, Copy, Debug, PartialEq, Eq)]
pub struct Key(u8);

impl TryFrom<u8> for Key {
    type Error = Refusal;

    fn try_from(number: u8) -> Result<Self, Refusal> {
        match number {
            0..ANY_KEY => Ok(Self(number)),
            _ => Err(Refusal::LessonWish),
        }
    }
}

impl From<Key> for u8 {
    fn from(key: Key) -> Self {
        key.0
    }
}

/// What a lesson's song is to have; where there is no wish, any will do. Each is within the C function's codes, so
/// `lesson` never refuses with `LessonWish`.
#[derive(Clone, Copy, Debug, Default, PartialEq, Eq)]
pub struct Wishes {
    pub key: Option<Key>,
    /// in beats per minute
    pub tempo: Option<NonZeroU8>,
    pub voice: Option<Voice>,
}

impl Wishes {
    /// Key, tempo and voice as the C function is told them.
    fn codes(self) -> [u8; 3] {
        [
            self.key.map_or(ANY_KEY, u8::from),
            self.tempo.map_or(ANY_TEMPO, u8::from),
            self.voice.map_or(ANY_VOICE, |voice| voice as u8),
        ]
    }
}

/// Some seed whose song, in this style, has all that is wished for, out of the span of `count` seeds from `start` on.
///
/// The span has 1 to `SPAN_MOST` seeds, and the last may be the largest seed itself; any other is refused with
/// `LessonSpan`. `NoSeed` is the answer exactly if no seed of the span has them. Where several have them, which one is
/// given is left to the library. No song is composed.
pub fn lesson(style: Style, start: u64, count: u64, wishes: Wishes) -> Result<u64, Refusal> {
    let [key, tempo, voice] = wishes.codes();
    let mut seed = 0;
    let style = style as u8;
    match unsafe { raw::seqochanu_lesson(style, start, count, key, tempo, voice, &mut seed) } {
        0 => Ok(seed),
        refused => Err(refusal(refused)),
    }
}

#[cfg(test)]
#[path = "lesson_tests.rs"]
mod tests;
