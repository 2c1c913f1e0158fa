//! The roles of songs' notes, as far as the sheet alone tells them, by the rule of docs/FORMAT.md. Whether a note off
//! the beat is a chord tone or passes is drawn, so the sheet does not tell that.

use super::tests::songs;
use super::{Note, Role, Sheet, Style, sheet_vec};
use std::collections::BTreeSet;

/// A song's sheet, to be asked for the lead notes' roles by their numbers in the lane.
struct Told(Sheet);

impl Told {
    fn lead(&self) -> &[Note] {
        &self.0.lead
    }

    /// How many lead notes stand before a note in its own bar.
    fn place(&self, i: usize) -> usize {
        let bar = self.lead()[i].bar;
        i - self.lead().partition_point(|note| note.bar < bar)
    }

    /// How many notes loop bar 4 quotes, if it has as many: the first two of loop bar 0.
    fn head(&self) -> usize {
        self.lead().partition_point(|note| note.bar == 0).min(2)
    }

    /// Whether the note was meant for a beat: it stands on one, or a sixteenth before.
    fn is_strong(&self, i: usize) -> bool {
        // it sounds up to 22 milliseconds after its sixteenth, so the whole ones count
        let sixteenths = self.lead()[i].time * self.0.tempo / 15.0;
        matches!(sixteenths as u32 % 4, 0 | 3)
    }

    /// Whether a leap led to the note before, of more than four semitones. The second note is told none, since what
    /// its leap started from does not stand on the sheet.
    fn after_leap(&self, i: usize) -> bool {
        i > 1 && self.lead()[i - 1].midi.abs_diff(self.lead()[i - 2].midi) > 4
    }

    /// The roles that the note may have.
    fn roles(&self, i: usize) -> &'static [Role] {
        match (self.lead()[i].bar, self.place(i)) {
            (4, place) if place < self.head() => &[Role::Quote],
            (7, _) if i + 1 == self.lead().len() => &[Role::Close],
            (5, 0) => &[Role::Peak],
            _ if self.after_leap(i) => &[Role::Resolve],
            _ if i == 1 => &[Role::Resolve, Role::ChordTone, Role::Passing],
            _ if self.is_strong(i) => &[Role::ChordTone],
            _ => &[Role::ChordTone, Role::Passing],
        }
    }
}

/// The sheets of some two hundred songs.
fn sheets() -> impl Iterator<Item = Sheet> {
    let more = (0..100).flat_map(|seed| [(Style::Hiphop, seed), (Style::Sleep, seed)]);
    let all = songs().chain(more);
    all.map(|(style, seed)| Sheet::parse(&sheet_vec(style, seed)).unwrap())
}

#[test]
fn lead_notes_have_the_roles_that_the_sheet_tells() {
    let mut seen = BTreeSet::new();
    for told in sheets().map(Told) {
        for (i, note) in told.lead().iter().enumerate() {
            let roles = told.roles(i);
            assert!(roles.contains(&note.role), "{i}: {note:?} of {roles:?}");
            seen.insert(note.role as u8);
        }
    }
    assert_eq!(seen, (0..6).collect(), "each of the six occurs");
}

#[test]
fn a_quote_has_the_pitch_that_it_quotes() {
    for told in sheets().map(Told) {
        for (i, note) in told.lead().iter().enumerate() {
            if note.role == Role::Quote {
                assert_eq!(note.midi, told.lead()[told.place(i)].midi);
            }
        }
    }
}

#[test]
fn close_peak_and_chord_tone_are_tones_of_their_chord() {
    for sheet in sheets() {
        for note in &sheet.lead {
            let chord = sheet.chords[usize::from(note.bar)];
            let is_tone = chord.iter().any(|tone| tone % 12 == note.midi % 12);
            if matches!(note.role, Role::Close | Role::Peak | Role::ChordTone) {
                assert!(is_tone, "{note:?} over {chord:?}");
            }
        }
    }
}
