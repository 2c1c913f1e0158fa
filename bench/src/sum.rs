//! The sum that `probe_song` answers, from the Rust's song and form.

use crate::compose::reach::form::{dips, intro_code, outro_code, phrases, plays_at};
use crate::compose::reach::{kind_code, voice_code};
use crate::compose::song::{HitBars, Song, note_bar};
use crate::compose::{Form, Note};

fn bits(x: f32) -> u64 {
    x.to_bits().into()
}

fn note(n: &Note) -> u64 {
    bits(n.at) + u64::from(n.midi) + bits(n.vel) + bits(n.dur)
}

fn bytes<'a>(all: impl IntoIterator<Item = &'a u8>) -> u64 {
    all.into_iter().map(|&n| u64::from(n)).sum()
}

/// The numbers that the Rust keeps of a song and its form: all that a sheet shows but the events' loop bars.
pub fn kept(song: &Song, form: &Form) -> u64 {
    let score = &song.score;
    let lanes = [&score.sparkle, &score.keys, &score.bass];
    let notes: u64 = lanes.into_iter().flatten().map(note).sum();
    let hits: u64 = (score.drums.iter())
        .map(|h| kind_code(h) + bits(h.at) + bits(h.gain))
        .sum();
    let ends = u64::from(intro_code(form) + outro_code(form)) + u64::from(dips(form));
    let bars = form.intro() + phrases(form) + form.outro();
    let plays: u64 = (0..form.bars()).map(|bar| plays_at(form, bar)).sum();
    let chords = bytes(score.bar_chords.as_flattened()) + bytes(&song.scale);
    bits(score.bpm) + voice_code(score) + chords + notes + hits + ends + bars as u64 + plays
}

/// The loop bars of the events.
pub fn bars(song: &Song) -> u64 {
    let score = &song.score;
    let per_second = 1.0 / score.bar_s();
    let lanes = [&score.sparkle, &score.keys, &score.bass];
    let notes = (lanes.into_iter().flatten()).map(|n| u64::from(note_bar(n, per_second)));
    let mut bars = HitBars::new();
    let hits = score.drums.iter().map(|h| u64::from(bars.next(h)));
    notes.sum::<u64>() + hits.sum::<u64>()
}
