//! Sheets of no seed: each value is drawn from all that document 02 lets a sheet have there.

use crate::bytes::{field, front};
use crate::dsp::NoiseStream;
use crate::dsp::reach::{next_u64, stream};
use crate::edition::{BACKING, Edition};
use std::collections::BTreeSet;

/// Numbers at the ends of what is finite, of both signs: zeros, the largest, the smallest that is normal, the largest
/// and the smallest that are subnormal; and -1.
const ODD: [u32; 11] = [
    0,
    0x8000_0000,
    0xbf80_0000,
    0x7f7f_ffff,
    0xff7f_ffff,
    0x0080_0000,
    0x8080_0000,
    0x007f_ffff,
    0x807f_ffff,
    0x0000_0001,
    0x8000_0001,
];

/// The field of a lane's events: its tag and the most events that it may have.
#[derive(Clone, Copy)]
pub struct EventField {
    pub tag: u8,
    pub most: usize,
}

const fn event_field(tag: u8, most: usize) -> EventField {
    EventField { tag, most }
}

pub const EVENT_FIELDS: [EventField; 4] = [
    event_field(0x05, 56),
    event_field(0x06, 128),
    event_field(0x07, 98),
    event_field(0x08, 104),
];

/// As many events as the lanes can have.
pub const COUNTS_MOST: [usize; 4] = {
    let [lead, keys, hits, bass] = EVENT_FIELDS;
    [lead.most, keys.most, hits.most, bass.most]
};

/// Each intro by its code and its bars.
const INTROS: [(u8, u8); 7] = [(0, 0), (1, 4), (1, 8), (2, 4), (2, 8), (3, 4), (3, 8)];

/// Each outro: those of intros, and the one that rings out.
const OUTROS: [(u8, u8); 8] = [
    (0, 0),
    (1, 4),
    (1, 8),
    (2, 4),
    (2, 8),
    (3, 4),
    (3, 8),
    (4, 2),
];

/// What a song is made of, as the field 0x09 tells it.
#[derive(Clone, Copy, Debug, PartialEq)]
pub struct Shape {
    pub intro: (u8, u8),
    pub phrases: u8,
    pub outro: (u8, u8),
    pub dip: u8,
}

impl Shape {
    pub fn body(self) -> Vec<u8> {
        let ((intro, intro_bars), (outro, outro_bars)) = (self.intro, self.outro);
        let numbers = [intro, intro_bars, self.phrases, outro, outro_bars, self.dip];
        numbers.to_vec()
    }

    pub fn bars(self) -> usize {
        let (intro, outro) = (usize::from(self.intro.1), usize::from(self.outro.1));
        intro + 8 * usize::from(self.phrases) + outro
    }

    /// Each shape that a song can have.
    pub fn all() -> Vec<Shape> {
        let mut all = Vec::new();
        for (intro, outro) in INTROS.iter().flat_map(|&i| OUTROS.map(|o| (i, o))) {
            for (phrases, dip) in (4..=6).flat_map(|p| [(p, 0), (p, 1)]) {
                all.push(Shape {
                    intro,
                    phrases,
                    outro,
                    dip,
                });
            }
        }
        all
    }

    /// How many bars a song can have.
    pub fn lengths() -> BTreeSet<usize> {
        Self::all().into_iter().map(Self::bars).collect()
    }
}

/// A sheet by its edition and the bodies of its ten fields, 0x01 first.
#[derive(Clone)]
pub struct Bodies {
    pub edition: Edition,
    bodies: [Vec<u8>; 10],
}

impl Bodies {
    /// The sheet of these bytes, which are known to be one.
    pub fn of(bytes: &[u8]) -> Bodies {
        let edition = Edition::of(bytes);
        let mut rest = &bytes[front(edition).len()..];
        let bodies = std::array::from_fn(|_| {
            let end = 3 + usize::from(u16::from_be_bytes([rest[1], rest[2]]));
            let body = rest[3..end].to_vec();
            rest = &rest[end..];
            body
        });
        Bodies { edition, bodies }
    }

    pub fn body(&self, tag: u8) -> &Vec<u8> {
        &self.bodies[usize::from(tag) - 1]
    }

    pub fn set(&mut self, tag: u8, body: Vec<u8>) {
        self.bodies[usize::from(tag) - 1] = body;
    }

    /// All fields by their tags and bodies, the one that names the edition included.
    pub fn fields(&self) -> Vec<(u8, Vec<u8>)> {
        let name = self.edition.name().map(|number| (0x00, vec![number]));
        let others = (0x01..).zip(self.bodies.clone());
        name.into_iter().chain(others).collect()
    }

    pub fn bytes(&self) -> Vec<u8> {
        let fields = self.fields().into_iter();
        fields.flat_map(|(tag, body)| field(tag, &body)).collect()
    }

    /// Whether the lanes are whole in the other edition too, as empty ones are, and as 14 notes of 15 bytes are 15 of
    /// 14. The field that names edition 2 may then come or go, and no fault of the fields is made.
    pub fn fits_other(&self) -> bool {
        EVENT_FIELDS.iter().all(|events| {
            let width = self.edition.other().event_width(events.tag);
            self.body(events.tag).len() % width == 0
        })
    }
}

/// Draws that a number decides.
pub struct Draws(NoiseStream);

impl Draws {
    pub fn of(seed: u64) -> Draws {
        Draws(stream(seed, 0))
    }

    pub fn word(&mut self) -> u64 {
        next_u64(&mut self.0)
    }

    pub fn below(&mut self, n: usize) -> usize {
        (self.word() % n as u64) as usize
    }

    pub fn byte_below(&mut self, n: u8) -> u8 {
        self.below(n.into()) as u8
    }

    fn bytes_below(&mut self, count: usize, n: u8) -> Vec<u8> {
        (0..count).map(|_| self.byte_below(n)).collect()
    }

    pub fn one_of<'a, T>(&mut self, all: &'a [T]) -> &'a T {
        &all[self.below(all.len())]
    }

    /// Any finite number; every other time an odd one.
    pub fn float(&mut self) -> [u8; 4] {
        let word = self.word();
        let drawn = (word >> 32) as u32;
        let bits = if word % 2 == 0 {
            *self.one_of(&ODD)
        } else if f32::from_bits(drawn).is_finite() {
            drawn
        } else {
            // one bit less, and the exponent is not the one of infinities and NaNs
            drawn & 0xff7f_ffff
        };
        bits.to_be_bytes()
    }

    /// A note of this lane.
    fn note(&mut self, edition: Edition, tag: u8) -> Vec<u8> {
        let (bar, at, midi) = (self.byte_below(8), self.float(), self.byte_below(128));
        let (vel, dur) = (self.float(), self.float());
        let role = match (edition, tag) {
            (Edition::One, _) => vec![],
            (Edition::Two, 0x05) => vec![self.byte_below(BACKING)],
            (Edition::Two, _) => vec![BACKING],
        };
        [&[bar], &at[..], &[midi], &vel, &dur, &role].concat()
    }

    fn hit(&mut self) -> Vec<u8> {
        let (bar, kind) = (self.byte_below(8), self.byte_below(4));
        [&[bar, kind], &self.float()[..], &self.float()].concat()
    }

    fn events(&mut self, edition: Edition, tag: u8, count: usize) -> Vec<u8> {
        let event = |_| match tag {
            0x07 => self.hit(),
            _ => self.note(edition, tag),
        };
        (0..count).flat_map(event).collect()
    }

    pub fn shape(&mut self) -> Shape {
        Shape {
            intro: *self.one_of(&INTROS),
            phrases: 4 + self.byte_below(3),
            outro: *self.one_of(&OUTROS),
            dip: self.byte_below(2),
        }
    }

    /// A sheet with so many events in its lanes and a song of this shape; the rest is drawn.
    pub fn sheet(&mut self, edition: Edition, counts: [usize; 4], shape: Shape) -> Bodies {
        let (style, seed, voice) = (self.byte_below(2), self.word(), self.byte_below(4));
        let [lead, keys, hits, bass] = counts;
        let scale = 5 + self.below(2);
        let bodies = [
            [&[style], &seed.to_be_bytes()[..], &[voice]].concat(),
            self.float().to_vec(),
            self.bytes_below(32, 128),
            self.bytes_below(scale, 12),
            self.events(edition, 0x05, lead),
            self.events(edition, 0x06, keys),
            self.events(edition, 0x07, hits),
            self.events(edition, 0x08, bass),
            shape.body(),
            self.bytes_below(shape.bars(), 16),
        ];
        Bodies { edition, bodies }
    }

    /// Counts of events: in each lane none, as many as it can have, or any number up to that.
    pub fn counts(&mut self) -> [usize; 4] {
        COUNTS_MOST.map(|most| match self.below(4) {
            0 => 0,
            1 => most,
            _ => self.below(most + 1),
        })
    }
}
