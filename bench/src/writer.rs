//! Sheets and bar pages of the Rust's songs by document 01, a page's hits by document 02's wish 4, and both in edition
//! 2 by its wish 5, into a buffer of the caller's: one pass over the song, two over a page's hits, nothing allocated,
//! each number written where it comes to stand.

use crate::compose::reach::form::{dips, intro_code, outro_code, phrases, plays_at};
use crate::compose::reach::{kind_code, voice_code};
use crate::compose::song::{HitBars, Song, note_bar};
use crate::compose::{Form, Hit, Note};
use std::iter::repeat;

/// The bits of the layers in a bar's plays; the lead plays in the keys' layer.
const PAD: u64 = 1;
const KEYS: u64 = 2;
const DRUMS: u64 = 4;
const BASS: u64 = 8;

/// The edition that is written, and the role of every note of the keys and the bass.
const EDITION: u8 = 2;
const BACKING: u8 = 6;

/// A buffer, and how many bytes of it are written.
struct Out<'a> {
    buf: &'a mut [u8],
    at: usize,
}

impl Out<'_> {
    /// The next N bytes.
    fn take<const N: usize>(&mut self) -> &mut [u8; N] {
        let bytes = self.buf[self.at..].first_chunk_mut().expect("room");
        self.at += N;
        bytes
    }

    fn bytes(&mut self, bytes: &[u8]) {
        self.buf[self.at..][..bytes.len()].copy_from_slice(bytes);
        self.at += bytes.len();
    }

    fn field(&mut self, tag: u8, body: &[u8]) {
        self.head(tag, body.len());
        self.bytes(body);
    }

    fn head(&mut self, tag: u8, len: usize) {
        let [high, low] = (len as u16).to_be_bytes();
        *self.take() = [tag, high, low];
    }

    /// The field that `body` writes, whose length is known only then.
    fn measured(&mut self, tag: u8, body: impl FnOnce(&mut Self)) {
        let start = self.at;
        self.at += 3;
        body(self);
        let end = self.at;
        self.at = start;
        self.head(tag, end - start - 3);
        self.at = end;
    }

    fn note(&mut self, bar: u8, n: &Note, role: u8) {
        let e: &mut [u8; 15] = self.take();
        e[0] = bar;
        e[1..5].copy_from_slice(&n.at.to_bits().to_be_bytes());
        e[5] = n.midi;
        e[6..10].copy_from_slice(&n.vel.to_bits().to_be_bytes());
        e[10..14].copy_from_slice(&n.dur.to_bits().to_be_bytes());
        e[14] = role;
    }

    fn hit(&mut self, bar: u8, h: &Hit) {
        let e: &mut [u8; 10] = self.take();
        e[0] = bar;
        e[1] = kind_code(h) as u8;
        e[2..6].copy_from_slice(&h.at.to_bits().to_be_bytes());
        e[6..].copy_from_slice(&h.gain.to_bits().to_be_bytes());
    }

    /// Those notes that are `shown` by their loop bar, each with its role. `bars` is how many bars a second has.
    fn notes(
        &mut self,
        (notes, roles): (&[Note], impl IntoIterator<Item = u8>),
        bars: f32,
        shown: impl Fn(u8) -> bool,
    ) {
        for (n, role) in notes.iter().zip(roles) {
            let bar = note_bar(n, bars);
            if shown(bar) {
                self.note(bar, n, role);
            }
        }
    }

    /// Those hits that are `shown` by their loop bar, and by whether they are before its line.
    fn hits(&mut self, song: &Song, shown: impl Fn(u8, bool) -> bool) {
        let bar_s = song.score.bar_s();
        let mut bars = HitBars::new();
        for h in &song.score.drums {
            let bar = bars.next(h);
            if shown(bar, h.at < f32::from(bar) * bar_s) {
                self.hit(bar, h);
            }
        }
    }

    /// The lanes' fields with the notes that are `shown` by layer and loop bar, and with the `hits`.
    fn lanes(
        &mut self,
        song: &Song,
        shown: impl Fn(u64, u8) -> bool,
        hits: impl FnOnce(&mut Self),
    ) {
        let score = &song.score;
        let bars = 1.0 / score.bar_s();
        let with_keys = |bar| shown(KEYS, bar);
        let lead = (&score.sparkle[..], song.roles.iter().copied());
        self.measured(0x05, |out| out.notes(lead, bars, with_keys));
        let keys = (&score.keys[..], repeat(BACKING));
        self.measured(0x06, |out| out.notes(keys, bars, with_keys));
        self.measured(0x07, hits);
        let bass = (&score.bass[..], repeat(BACKING));
        self.measured(0x08, |out| out.notes(bass, bars, |bar| shown(BASS, bar)));
    }

    fn form(&mut self, form: &Form) {
        let ends = [
            intro_code(form),
            form.intro() as u8,
            phrases(form) as u8,
            outro_code(form),
            form.outro() as u8,
            dips(form).into(),
        ];
        self.field(0x09, &ends);
        self.head(0x0a, form.bars());
        for bar in 0..form.bars() {
            *self.take() = [plays_at(form, bar) as u8];
        }
    }
}

/// Writes the sheet; its length.
pub fn sheet(style: u8, seed: u64, song: &Song, form: &Form, buf: &mut [u8]) -> usize {
    let mut out = Out { buf, at: 0 };
    out.field(0x00, &[EDITION]);
    out.head(0x01, 10);
    *out.take() = [style];
    *out.take() = seed.to_be_bytes();
    *out.take() = [voice_code(&song.score) as u8];
    out.field(0x02, &song.score.bpm.to_bits().to_be_bytes());
    out.field(0x03, song.score.bar_chords.as_flattened());
    out.field(0x04, &song.scale);
    out.lanes(song, |_, _| true, |out| out.hits(song, |_, _| true));
    out.form(form);
    out.at
}

/// Writes the page of song bar `bar`; its length.
pub fn page(song: &Song, form: &Form, bar: usize, buf: &mut [u8]) -> usize {
    let shows = |bar: usize| (bar + form.lead_in()) % 8;
    let drums = |bar: usize| bar < form.bars() && plays_at(form, bar) & DRUMS != 0;
    let (plays, here, next) = (plays_at(form, bar), shows(bar), shows(bar + 1));
    let mut out = Out { buf, at: 0 };
    out.field(0x00, &[EDITION]);
    match plays & PAD {
        0 => out.field(0x03, &[]),
        _ => out.field(0x03, &song.score.bar_chords[here]),
    }
    let noted = |layer: u64, of: u8| plays & layer != 0 && usize::from(of) == here;
    out.lanes(song, noted, |out| {
        if drums(bar) {
            out.hits(song, |of, early| {
                usize::from(of) == here && (bar == 0 || !early)
            });
        }
        if drums(bar + 1) {
            out.hits(song, |of, early| usize::from(of) == next && early);
        }
    });
    out.at
}
