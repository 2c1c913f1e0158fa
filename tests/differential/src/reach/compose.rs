//! The private parts of compose.rs that the driver asks for.

use super::{
    Chord, DrumKind, GEN_LOOP_BARS, Harmony, LEAD_GRID, LeadVoice, STATEMENT_BARS, Score, Stage,
};
pub(crate) use super::{Hit, Note, form::reach as form, kicks};
use crate::dsp::NoiseStream;
use crate::dsp::reach::{counter_of, seed_of, stream};
use crate::style::{HIPHOP, SLEEP, Style};
use roles::{Melody, role_code};

mod roles;

/// The stages in the order of their numbers.
pub(crate) const STAGES: [Stage; 8] = [
    Stage::Form,
    Stage::Harmony,
    Stage::Tempo,
    Stage::Lead,
    Stage::Keys,
    Stage::Drums,
    Stage::Bass,
    Stage::LeadVoice,
];

/// The styles in the order of their numbers.
pub(crate) static STYLES: [&Style; 2] = [&HIPHOP, &SLEEP];

pub(crate) fn pick(rng: &mut NoiseStream, n: usize) -> usize {
    super::pick(rng, n)
}

pub(crate) fn chance(rng: &mut NoiseStream, p: f32) -> bool {
    super::chance(rng, p)
}

pub(crate) fn coin(rng: &mut NoiseStream) -> bool {
    super::coin(rng)
}

/// The voice's number on the sheet.
pub(crate) fn voice_code(score: &Score) -> u64 {
    match score.lead_voice {
        LeadVoice::EpVel => 0,
        LeadVoice::Pluck => 1,
        LeadVoice::Kalimba => 2,
        LeadVoice::Vibraphone => 3,
    }
}

/// The drum's number on the sheet.
pub(crate) fn kind_code(hit: &Hit) -> u64 {
    match hit.kind {
        DrumKind::Kick => 0,
        DrumKind::Snare => 1,
        DrumKind::Hat => 2,
        DrumKind::OpenHat => 3,
    }
}

/// A hit at this time, its drum by number; a number of none is a kick.
pub(crate) fn hit(at: f32, kind: u64) -> Hit {
    let kind = match kind {
        1 => DrumKind::Snare,
        2 => DrumKind::Hat,
        3 => DrumKind::OpenHat,
        _ => DrumKind::Kick,
    };
    Hit {
        at,
        kind,
        gain: 0.0,
    }
}

/// The loop bar that each event was drawn for.
pub(crate) struct EventBars {
    pub(crate) lead: Vec<u64>,
    pub(crate) keys: Vec<u64>,
    pub(crate) hits: Vec<u64>,
    pub(crate) bass: Vec<u64>,
}

/// A song, and what its stages keep to themselves.
pub(crate) struct Take {
    pub(crate) score: Score,
    pub(crate) roots: [u8; GEN_LOOP_BARS],
    pub(crate) scale: Vec<u8>,
    /// The counters that the stages after the form leave their streams with.
    pub(crate) counters: [u64; 7],
    pub(crate) bars: EventBars,
    /// The lead notes' roles by their numbers on the sheet.
    pub(crate) roles: Vec<u8>,
}

pub(crate) fn take(style: &'static Style, seed: u64) -> Take {
    let (score, harmony) = super::composed(style, seed);
    let (lead, roles) = lead_bars_and_roles(&score, &harmony, seed);
    Take {
        roots: harmony.bars.map(|c| c.root_pc),
        counters: counters(&score, &harmony, seed),
        bars: EventBars {
            lead,
            keys: keys_bars(&score, seed),
            hits: hit_bars(&score),
            bass: bass_bars(seed),
        },
        roles,
        scale: harmony.melody_pcs,
        score,
    }
}

/// `composed` keeps its streams to itself, so its stages are run again, on streams that are kept.
fn counters(score: &Score, harmony: &Harmony, seed: u64) -> [u64; 7] {
    let mut streams: [NoiseStream; 7] = std::array::from_fn(|i| STAGES[1 + i].stream(seed));
    let [for_harmony, tempo, lead, keys, drums, bass, voice] = &mut streams;
    let (writing, beat_s) = (&score.style.writing, score.beat_s());
    super::harmony(for_harmony, &writing.harmony);
    writing.bpm.draw(tempo);
    let sparkle = super::lead(lead, harmony, &writing.lead, beat_s);
    assert_eq!(sparkle, score.sparkle, "the lead comes out again");
    let again = super::keys(keys, &harmony.bars, &writing.keys, beat_s);
    assert_eq!(again, score.keys, "the keys come out again");
    let again = super::drums(drums, &writing.drums, beat_s);
    assert_eq!(again, score.drums, "the drums come out again");
    let again = super::bass(bass, &harmony.bars, &writing.bass, beat_s);
    assert_eq!(again, score.bass, "the bass comes out again");
    voice.unit();
    streams.each_ref().map(counter_of)
}

/// The bars and the roles of the melody's notes, which are played in their order.
fn lead_bars_and_roles(score: &Score, harmony: &Harmony, seed: u64) -> (Vec<u64>, Vec<u8>) {
    let style = &score.style.writing.lead;
    let rng = &mut Stage::Lead.stream(seed);
    let statement = super::statement(rng, style);
    let answer = super::answer(rng, &statement);
    let again = &mut stream(seed_of(rng), counter_of(rng));
    let line = &super::melody(rng, &[statement, answer].concat(), harmony, style)[..];
    let sung = line.iter().map(|n| n.note);
    let played = score.sparkle.iter().map(|n| n.midi);
    assert!(sung.eq(played), "the song plays this melody");
    let melody = Melody {
        harmony,
        style,
        line,
    };
    let roles = melody.roles(again).into_iter().map(role_code).collect();
    let drawn = (counter_of(rng), counter_of(again));
    assert_eq!(drawn.0, drawn.1, "the roles take the melody's draws");
    (line.iter().map(|n| n.bar as u64).collect(), roles)
}

/// The keys over chords of thirds and sevenths alone, each bar's in an octave of its own: no draw
/// depends on a chord, so the same notes come, and each tells its bar.
fn keys_bars(score: &Score, seed: u64) -> Vec<u64> {
    let chords = std::array::from_fn(|bar| {
        let c = 12 * bar as u8;
        Chord {
            notes: [c + 4, c + 4, c + 11, c + 11],
            root_pc: 0,
        }
    });
    let rng = &mut Stage::Keys.stream(seed);
    let notes = super::keys(rng, &chords, &score.style.writing.keys, score.beat_s());
    // a seventh lifted to the ninth is at most 10 over the third
    notes.iter().map(|n| u64::from(n.midi - 4) / 12).collect()
}

/// Each bar has kicks, then snares, then hats, so a kick after another drum starts the next bar.
fn hit_bars(score: &Score) -> Vec<u64> {
    let (mut bar, mut kicking) = (0, true);
    (score.drums.iter())
        .map(|hit| {
            let kick = hit.kind == DrumKind::Kick;
            bar += u64::from(kick && !kicking);
            kicking = kick;
            bar
        })
        .collect()
}

/// Every bar's rhythm is drawn before any note, and has a step for each of its notes.
fn bass_bars(seed: u64) -> Vec<u64> {
    let rng = &mut Stage::Bass.stream(seed);
    (0..GEN_LOOP_BARS as u64)
        .flat_map(|bar| super::bass_rhythm(rng).into_iter().map(move |_| bar))
        .collect()
}

/// The tempo as drawn, before it is rounded.
pub(crate) fn tempo_drawn(style: &Style, seed: u64) -> f32 {
    style.writing.bpm.draw(&mut Stage::Tempo.stream(seed))
}

/// How many notes the draws leave a statement, before it may fall back: `statement` up to there.
pub(crate) fn stated(style: &Style, seed: u64) -> usize {
    let (rng, style) = (&mut Stage::Lead.stream(seed), &style.writing.lead);
    let mut bar = || {
        if style.rest_p.is_some_and(|p| chance(rng, p)) {
            return 0;
        }
        let mut beats: Vec<f32> = (LEAD_GRID.iter().copied())
            .filter(|_| chance(rng, style.note_p))
            .collect();
        for b in &mut beats {
            super::push(rng, b);
        }
        super::settle(&mut beats);
        beats.len()
    };
    (0..STATEMENT_BARS).map(|_| bar()).sum()
}
