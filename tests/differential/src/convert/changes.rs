//! Sheets of songs with one thing changed to another that some sheet may have there. The reader takes them, and the
//! seed that they name doesn't give them.

use crate::edition::BACKING;
use crate::reread::sheets::{Bodies, Draws, EVENT_FIELDS};
use Range::{Below, Ending, Finite, Word};

/// What a value may be.
#[derive(Clone, Copy)]
enum Range {
    /// A byte below this number.
    Below(u8),
    /// The bits of a finite number.
    Finite,
    /// Any eight bytes.
    Word,
    /// The code of an ending of 4 or 8 bars, of which there are three. The others have bars that no other code has.
    Ending,
}

/// How often a value stands in its field.
#[derive(Clone, Copy)]
enum Each {
    Field,
    Event,
    Byte,
}

/// A kind of value: the tag of its field, and its place from where the body, the event or the byte starts.
#[derive(Clone, Copy)]
struct Kind {
    name: &'static str,
    tag: u8,
    each: Each,
    at: usize,
    range: Range,
}

const fn in_field(name: &'static str, tag: u8, at: usize, range: Range) -> Kind {
    let each = Each::Field;
    Kind {
        name,
        tag,
        each,
        at,
        range,
    }
}

const fn in_event(name: &'static str, tag: u8, at: usize, range: Range) -> Kind {
    let each = Each::Event;
    Kind {
        each,
        ..in_field(name, tag, at, range)
    }
}

const fn each_byte(name: &'static str, tag: u8, range: Range) -> Kind {
    let each = Each::Byte;
    Kind {
        each,
        ..in_field(name, tag, 0, range)
    }
}

/// Each kind of value that can be another while all else stays. Other bars of an ending, or other phrases, ask for
/// other plays, and the role of a keys or bass note is always the same.
const KINDS: [Kind; 30] = [
    in_field("the style", 0x01, 0, Below(2)),
    in_field("the seed", 0x01, 1, Word),
    in_field("the lead's voice", 0x01, 9, Below(4)),
    in_field("the tempo", 0x02, 0, Finite),
    each_byte("a chord's note", 0x03, Below(128)),
    each_byte("a class of the scale", 0x04, Below(12)),
    in_event("the bar of a lead note", 0x05, 0, Below(8)),
    in_event("the time of a lead note", 0x05, 1, Finite),
    in_event("the MIDI note of a lead note", 0x05, 5, Below(128)),
    in_event("the velocity of a lead note", 0x05, 6, Finite),
    in_event("the duration of a lead note", 0x05, 10, Finite),
    in_event("the role of a lead note", 0x05, 14, Below(BACKING)),
    in_event("the bar of a keys note", 0x06, 0, Below(8)),
    in_event("the time of a keys note", 0x06, 1, Finite),
    in_event("the MIDI note of a keys note", 0x06, 5, Below(128)),
    in_event("the velocity of a keys note", 0x06, 6, Finite),
    in_event("the duration of a keys note", 0x06, 10, Finite),
    in_event("the bar of a hit", 0x07, 0, Below(8)),
    in_event("the kind of a hit", 0x07, 1, Below(4)),
    in_event("the time of a hit", 0x07, 2, Finite),
    in_event("the gain of a hit", 0x07, 6, Finite),
    in_event("the bar of a bass note", 0x08, 0, Below(8)),
    in_event("the time of a bass note", 0x08, 1, Finite),
    in_event("the MIDI note of a bass note", 0x08, 5, Below(128)),
    in_event("the velocity of a bass note", 0x08, 6, Finite),
    in_event("the duration of a bass note", 0x08, 10, Finite),
    in_field("the intro's code", 0x09, 0, Ending),
    in_field("the outro's code", 0x09, 3, Ending),
    in_field("the dip", 0x09, 5, Below(2)),
    each_byte("a bar's plays", 0x0a, Below(16)),
];

impl Range {
    fn width(self) -> usize {
        match self {
            Below(_) | Ending => 1,
            Finite => 4,
            Word => 8,
        }
    }

    /// Whether a value of the range can be another one.
    fn has_others(self, value: u8) -> bool {
        !matches!(self, Ending) || (1..=3).contains(&value)
    }

    /// A value of the range; a number is often like the one that stands there.
    fn drawn(self, draws: &mut Draws, old: &[u8]) -> Vec<u8> {
        match self {
            Below(n) => vec![draws.byte_below(n)],
            Finite => float_like(draws, old).to_vec(),
            Word => word_like(draws, old).to_vec(),
            Ending => vec![1 + draws.byte_below(3)],
        }
    }
}

/// A number with the other sign, with another bit of its mantissa, or any finite one.
fn float_like(draws: &mut Draws, old: &[u8]) -> [u8; 4] {
    let bits = u32::from_be_bytes(old.try_into().expect("an f32 has four bytes"));
    match draws.below(4) {
        0 => (bits ^ 1 << 31).to_be_bytes(),
        1 | 2 => (bits ^ 1 << draws.below(23)).to_be_bytes(),
        _ => draws.float(),
    }
}

/// A word with another bit, or any word.
fn word_like(draws: &mut Draws, old: &[u8]) -> [u8; 8] {
    let word = u64::from_be_bytes(old.try_into().expect("a seed has eight bytes"));
    let other = match draws.below(2) {
        0 => word ^ 1 << draws.below(64),
        _ => draws.word(),
    };
    other.to_be_bytes()
}

impl Kind {
    /// The places in the field's body where the sheet has a value of this kind that can be another.
    fn places(&self, sheet: &Bodies) -> Vec<usize> {
        let (body, event) = (sheet.body(self.tag), sheet.edition.event_width(self.tag));
        let size = match self.each {
            Each::Field => body.len(),
            Each::Event => event,
            Each::Byte => 1,
        };
        // in edition 1 a note ends where its role would stand
        if self.at >= size {
            return Vec::new();
        }
        let all = (self.at..body.len()).step_by(size);
        all.filter(|&at| self.range.has_others(body[at])).collect()
    }

    /// The sheet with one of these values changed to another of its range, if it has one.
    fn changed(&self, draws: &mut Draws, sheet: &Bodies) -> Option<Bodies> {
        let places = self.places(sheet);
        if places.is_empty() {
            return None;
        }
        let (mut body, at) = (sheet.body(self.tag).clone(), *draws.one_of(&places));
        let value = &mut body[at..at + self.range.width()];
        let new = loop {
            let drawn = self.range.drawn(draws, value);
            if drawn != *value {
                break drawn;
            }
        };
        value.copy_from_slice(&new);
        Some(with(sheet, self.tag, body))
    }
}

fn with(sheet: &Bodies, tag: u8, body: Vec<u8>) -> Bodies {
    let mut sheet = sheet.clone();
    sheet.set(tag, body);
    sheet
}

/// A sheet with its things rearranged, where that changes it.
type Rearranged = fn(&mut Draws, &Bodies) -> Option<Bodies>;

/// Other counts and another order, each as some sheet has it.
const REARRANGED: [(&str, Rearranged); 5] = [
    ("an event left out", left_out),
    ("an event doubled", doubled),
    ("two events swapped", swapped),
    ("a class more or less in the scale", rescaled),
    ("a song of another shape", reshaped),
];

/// The events of one lane, its tag and the most that it may have.
fn lane(draws: &mut Draws, sheet: &Bodies) -> (u8, usize, Vec<Vec<u8>>) {
    let events = draws.one_of(&EVENT_FIELDS);
    let width = sheet.edition.event_width(events.tag);
    let all = sheet.body(events.tag).chunks(width).map(<[u8]>::to_vec);
    (events.tag, events.most, all.collect())
}

fn left_out(draws: &mut Draws, sheet: &Bodies) -> Option<Bodies> {
    let (tag, _, mut events) = lane(draws, sheet);
    if events.is_empty() {
        return None;
    }
    events.remove(draws.below(events.len()));
    Some(with(sheet, tag, events.concat()))
}

fn doubled(draws: &mut Draws, sheet: &Bodies) -> Option<Bodies> {
    let (tag, most, mut events) = lane(draws, sheet);
    if events.is_empty() || events.len() == most {
        return None;
    }
    let i = draws.below(events.len());
    events.insert(i, events[i].clone());
    Some(with(sheet, tag, events.concat()))
}

fn swapped(draws: &mut Draws, sheet: &Bodies) -> Option<Bodies> {
    let (tag, _, mut events) = lane(draws, sheet);
    if events.is_empty() {
        return None;
    }
    let [i, k] = [0; 2].map(|_| draws.below(events.len()));
    events.swap(i, k);
    let other = with(sheet, tag, events.concat());
    (other.body(tag) != sheet.body(tag)).then_some(other)
}

fn rescaled(draws: &mut Draws, sheet: &Bodies) -> Option<Bodies> {
    let mut scale = sheet.body(0x04).clone();
    match scale.len() {
        5 => scale.push(draws.byte_below(12)),
        _ => drop(scale.pop()),
    }
    Some(with(sheet, 0x04, scale))
}

/// The plays stay as far as they go, and what is missing plays all layers.
fn reshaped(draws: &mut Draws, sheet: &Bodies) -> Option<Bodies> {
    let (shape, mut plays) = (draws.shape(), sheet.body(0x0a).clone());
    plays.resize(shape.bars(), 15);
    let other = with(&with(sheet, 0x09, shape.body()), 0x0a, plays);
    (other.body(0x09) != sheet.body(0x09)).then_some(other)
}

/// The sheet with a value changed, and what it is.
pub fn value_changed(draws: &mut Draws, sheet: &Bodies) -> (&'static str, Bodies) {
    loop {
        let kind = draws.one_of(&KINDS);
        if let Some(changed) = kind.changed(draws, sheet) {
            return (kind.name, changed);
        }
    }
}

/// The sheet with something rearranged, and what it is.
fn rearranged(draws: &mut Draws, sheet: &Bodies) -> (&'static str, Bodies) {
    loop {
        let (name, rearrange) = draws.one_of(&REARRANGED);
        if let Some(other) = rearrange(draws, sheet) {
            return (name, other);
        }
    }
}

/// The sheet with a value changed, or one time in four with something rearranged, and what it is.
pub fn changed(draws: &mut Draws, sheet: &Bodies) -> (&'static str, Bodies) {
    match draws.below(4) {
        0 => rearranged(draws, sheet),
        _ => value_changed(draws, sheet),
    }
}

/// All that can be changed or rearranged, each with a sheet that comes of it where this sheet has such a thing.
pub fn each(draws: &mut Draws, sheet: &Bodies) -> Vec<(&'static str, Option<Bodies>)> {
    let mut all = Vec::new();
    for kind in KINDS {
        all.push((kind.name, kind.changed(draws, sheet)));
    }
    for (name, rearrange) in REARRANGED {
        all.push((name, rearrange(draws, sheet)));
    }
    all
}
