//! The role of each lead note. The Rust's `melody` chooses one for each note and does not keep it, so its rule stands
//! here once more, over the Rust's own stream and the bars, beats and pitches of the Rust's own notes. Each pitch and
//! each velocity that the rule gives must be the note's own.

use crate::compose::{
    CHORD_TONE_P, DRIFT, FIFTH, Harmony, LEAP, LeadNote, LeadStyle, OCTAVE, PEAK_ACCENT, PEAK_BAR,
    PEAK_LIFT, PERIOD_BARS, QUOTE_NOTES, Role, SIXTEENTH_BEATS, SKIP_P, START_LIFT, STATEMENT_BARS,
    chance, chord_tones_in, coin, nearest, pick, scale_step,
};
use crate::dsp::NoiseStream;
use std::ops::RangeInclusive;

/// The role's number on the sheet.
pub(super) fn role_code(role: Role) -> u8 {
    match role {
        Role::Quote => 0,
        Role::Close => 1,
        Role::Peak => 2,
        Role::Resolve => 3,
        Role::ChordTone => 4,
        Role::Passing => 5,
    }
}

/// A number of the range, each as likely as the others.
fn drawn(rng: &mut NoiseStream, range: RangeInclusive<i16>) -> i16 {
    *range.start() + pick(rng, range.count()) as i16
}

/// A melody of the Rust's, and what it was sung over. Notes go by their place in the line.
pub(super) struct Melody<'a> {
    pub(super) harmony: &'a Harmony,
    pub(super) style: &'a LeadStyle,
    pub(super) line: &'a [LeadNote],
}

impl Melody<'_> {
    /// The chord tones of a bar that the scale has, from `lo` up to the style's highest note.
    fn sung_from(&self, bar: usize, lo: u8) -> Vec<u8> {
        let (chord, scale) = (&self.harmony.bars[bar], &self.harmony.melody_pcs);
        let mut tones = chord_tones_in(&chord.notes, lo, self.style.hi);
        tones.retain(|tone| scale.contains(&(tone % OCTAVE)));
        tones
    }

    /// The tones of a bar; for a strong beat without the chord's root, where others are left.
    fn tones(&self, bar: usize, strong: bool) -> Vec<u8> {
        let root = self.harmony.bars[bar].root_pc;
        let all = self.sung_from(bar, self.style.lo);
        let mut others = all.clone();
        others.retain(|tone| tone % OCTAVE != root);
        match strong && !others.is_empty() {
            true => others,
            false => all,
        }
    }

    /// The pitch before note `i`; before the first one, a tone of the top octave near the middle of the range.
    fn before(&self, i: usize) -> u8 {
        if i > 0 {
            return self.line[i - 1].note;
        }
        let LeadStyle { lo, hi, .. } = *self.style;
        let octave = self.sung_from(0, lo.max(hi.saturating_sub(OCTAVE)));
        nearest(&octave, lo.midpoint(hi) + START_LIFT)
    }

    /// How far the melody moved to the note before note `i`.
    fn leap(&self, i: usize) -> i16 {
        match i {
            0 => 0,
            _ => i16::from(self.before(i)) - i16::from(self.before(i - 1)),
        }
    }

    /// The notes that the answer may quote.
    fn quoted(&self) -> Vec<u8> {
        let opening = self.line.iter().take_while(|n| n.bar == 0);
        opening.take(QUOTE_NOTES).map(|n| n.note).collect()
    }

    /// The place of note `i` in its bar.
    fn place(&self, i: usize) -> usize {
        let bar = self.line[i].bar;
        self.line[..i].iter().filter(|n| n.bar == bar).count()
    }

    /// Whether note `i` is on a beat, or was pushed from one to the sixteenth before it.
    fn is_strong(&self, i: usize) -> bool {
        [0.0, 1.0 - SIXTEENTH_BEATS].contains(&self.line[i].beat.fract())
    }

    /// The first role that applies to note `i`. Where none of the first four does, and the note is not strong, a draw
    /// decides.
    fn role(&self, rng: &mut NoiseStream, i: usize) -> Role {
        let (bar, place) = (self.line[i].bar, self.place(i));
        let last = bar == PERIOD_BARS - 1 && i == self.line.len() - 1;
        let quotes = bar == STATEMENT_BARS && place < self.quoted().len() && !last;
        let peaks = bar == PEAK_BAR && place == 0;
        let leapt = self.leap(i).abs() > LEAP;
        let undrawn = [
            (quotes, Role::Quote),
            (last, Role::Close),
            (peaks, Role::Peak),
            (leapt, Role::Resolve),
            (self.is_strong(i), Role::ChordTone),
        ];
        match undrawn.into_iter().find(|(applies, _)| *applies) {
            Some((_, role)) => role,
            None if chance(rng, CHORD_TONE_P) => Role::ChordTone,
            None => Role::Passing,
        }
    }

    /// The pitch that this role gives note `i`.
    fn pitch(&self, rng: &mut NoiseStream, role: Role, i: usize) -> u8 {
        let LeadStyle { lo, hi, .. } = *self.style;
        let (bar, before) = (self.line[i].bar, self.before(i));
        let moved = |by: i16| (i16::from(before) + by).clamp(lo.into(), hi.into()) as u8;
        let stepped = |by: i8| scale_step(before, by, &self.harmony.melody_pcs, lo, hi);
        match role {
            Role::Quote => self.quoted()[self.place(i)],
            // near the first note, which is the one before the second
            Role::Close => nearest(&self.tones(bar, false), self.before(i.min(1))),
            Role::Peak => nearest(&self.tones(bar, true), moved(drawn(rng, PEAK_LIFT))),
            Role::Resolve => stepped(-self.leap(i).signum() as i8),
            Role::ChordTone => {
                let tones = self.tones(bar, self.is_strong(i));
                let near = nearest(&tones, moved(drawn(rng, DRIFT)));
                match near.abs_diff(before) > FIFTH {
                    true => nearest(&tones, before),
                    false => near,
                }
            }
            Role::Passing => {
                let up = coin(rng);
                let by = if chance(rng, SKIP_P) { 2 } else { 1 };
                stepped(if up { by } else { -by })
            }
        }
    }

    /// The role of each note, drawn from the stream that the melody was drawn from.
    pub(super) fn roles(&self, rng: &mut NoiseStream) -> Vec<Role> {
        let role_of = |(i, note): (usize, &LeadNote)| {
            let role = self.role(rng, i);
            let pitch = self.pitch(rng, role, i);
            let mut vel = self.style.velocity.draw(rng);
            if role == Role::Peak {
                vel += PEAK_ACCENT;
            }
            let (rule, rust) = ((pitch, vel), (note.note, note.vel));
            assert_eq!(rule, rust, "note {i} of the melody, by {role:?}");
            role
        };
        self.line.iter().enumerate().map(role_of).collect()
    }
}
