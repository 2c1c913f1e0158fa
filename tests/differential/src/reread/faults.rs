//! Sheets with faults: each kind of fault at each place where it can stand, and the number that document 02 has for
//! it.

use super::judge::{FIELDS, VALUES};
use super::sheets::{Bodies, EVENT_FIELDS, EventField, Shape};
use crate::bytes::{field, front};
use crate::edition::{BACKING, Edition};
use std::collections::BTreeSet;

/// Bits of no number: both infinities, then NaNs of both signs, quiet and signalling ones.
const NO_NUMBERS: [u32; 8] = [
    0x7f80_0000,
    0xff80_0000,
    0x7fc0_0000,
    0xffc0_0000,
    0x7f80_0001,
    0xff80_0001,
    0x7fff_ffff,
    0xffff_ffff,
];

/// Bytes that stray in front of a field, one at a time. A scale can have each for a class.
const STRAY: [u8; 2] = [0, 1];

/// What is wrong with a field, which is named by the tag that it has in a sound sheet.
#[derive(Clone, Debug)]
pub struct Fault {
    of: u8,
    what: What,
}

#[derive(Clone, Debug)]
enum What {
    /// Other bytes in the body, from a place on, which are out of range there.
    Value(usize, Vec<u8>),
    /// As many plays as another song has.
    OtherSong(usize),
    /// Another number in the field that names the edition.
    Name(u8),
    /// Another tag.
    Tag(u8),
    /// A length before the body that is so much more than its own, modulo 2^16.
    Length(u16),
    /// A body of a length that no sheet has there, with that length before it.
    Body(usize),
    /// Bytes more, in front of the field or behind it.
    Before(Vec<u8>),
    Behind(Vec<u8>),
    Missing,
    Doubled,
    /// In the place of another field, and that in the place of this one.
    Swapped(u8),
    /// Behind all others.
    Last,
    /// In its place, and once more behind all others.
    Again,
}

/// A field on its way into bytes: the tag by which faults name it, and what is written.
#[derive(Clone)]
struct Part {
    home: u8,
    before: Vec<u8>,
    tag: u8,
    length: u16,
    body: Vec<u8>,
    behind: Vec<u8>,
}

impl Part {
    fn new(tag: u8, body: &[u8]) -> Part {
        Part {
            home: tag,
            before: Vec::new(),
            tag,
            length: body.len() as u16,
            body: body.to_vec(),
            behind: Vec::new(),
        }
    }

    /// The body with its end cut off or with zeros behind it, and a length that tells so.
    fn resize(&mut self, len: usize) {
        self.body.resize(len, 0);
        self.length = len as u16;
    }

    fn bytes(&self) -> Vec<u8> {
        let length = self.length.to_be_bytes();
        let head = [self.tag, length[0], length[1]];
        [&self.before, &head[..], &self.body, &self.behind].concat()
    }
}

/// Where a field stands; nowhere, if another fault took it away.
fn place(parts: &[Part], of: u8) -> Option<usize> {
    parts.iter().position(|part| part.home == of)
}

impl Fault {
    /// The number that document 02 has for a sheet with this fault alone.
    pub fn number(&self) -> i64 {
        match self.what {
            What::Value(..) | What::OtherSong(_) => VALUES,
            _ => FIELDS,
        }
    }

    /// What the fault does within the field.
    fn change(&self, part: &mut Part) {
        match &self.what {
            What::Value(at, bytes) => part.body[*at..at + bytes.len()].copy_from_slice(bytes),
            What::OtherSong(len) | What::Body(len) => part.resize(*len),
            What::Name(number) => part.body = vec![*number],
            What::Tag(tag) => part.tag = *tag,
            What::Length(more) => part.length = part.length.wrapping_add(*more),
            What::Before(bytes) => part.before = bytes.clone(),
            What::Behind(bytes) => part.behind = bytes.clone(),
            What::Missing | What::Doubled | What::Swapped(_) | What::Last | What::Again => {}
        }
    }

    /// What the fault does to the fields' order.
    fn apply(&self, parts: &mut Vec<Part>) {
        let Some(at) = place(parts, self.of) else {
            return;
        };
        self.change(&mut parts[at]);
        match self.what {
            What::Missing => drop(parts.remove(at)),
            What::Doubled => parts.insert(at, parts[at].clone()),
            What::Swapped(with) => {
                if let Some(other) = place(parts, with) {
                    parts.swap(at, other);
                }
            }
            What::Last => parts[at..].rotate_left(1),
            What::Again => parts.push(parts[at].clone()),
            _ => {}
        }
    }
}

/// The sheet's bytes with these faults, one after the other.
pub fn faulty(sheet: &Bodies, faults: &[&Fault]) -> Vec<u8> {
    let fields = sheet.fields().into_iter();
    let mut parts: Vec<Part> = fields.map(|(tag, body)| Part::new(tag, &body)).collect();
    for fault in faults {
        fault.apply(&mut parts);
    }
    let fields: Vec<Vec<u8>> = parts.iter().map(Part::bytes).collect();
    fields.concat()
}

/// The sheets that two faults can make of a sheet. They may undo each other, as a length that is one more and then one
/// less. And where the length of a scale of five classes is one more, a stray byte behind it is the sixth class; no
/// other field can be a byte longer.
pub fn sheets_by_two(sheet: &Bodies) -> Vec<Vec<u8>> {
    let mut all = vec![sheet.bytes()];
    let scale = sheet.body(0x04);
    if scale.len() == 5 {
        all.extend(STRAY.map(|class| {
            let mut six = sheet.clone();
            six.set(0x04, [&scale[..], &[class]].concat());
            six.bytes()
        }));
    }
    all
}

fn fault(of: u8, what: What) -> Fault {
    Fault { of, what }
}

fn value(of: u8, at: usize, bytes: &[u8]) -> Fault {
    fault(of, What::Value(at, bytes.to_vec()))
}

/// Each of these bytes at a place.
fn bytes_at(all: &mut Vec<Fault>, of: u8, at: usize, bytes: &[u8]) {
    all.extend(bytes.iter().map(|&byte| value(of, at, &[byte])));
}

/// No number at each of these places.
fn floats_at(all: &mut Vec<Fault>, of: u8, places: &[usize]) {
    for &at in places {
        all.extend(NO_NUMBERS.map(|bits| value(of, at, &bits.to_be_bytes())));
    }
}

/// Roles that no note of this lane has.
fn no_roles(tag: u8) -> Vec<u8> {
    let others = match tag {
        0x05 => BACKING..=BACKING,
        _ => 0..=BACKING - 1,
    };
    others.chain([BACKING + 1, 128, 255]).collect()
}

/// Values out of range in each event of a field.
fn event_values(all: &mut Vec<Fault>, tag: u8, sheet: &Bodies) {
    let width = sheet.edition.event_width(tag);
    for at in (0..sheet.body(tag).len()).step_by(width) {
        bytes_at(all, tag, at, &[8, 128, 255]);
        if tag == 0x07 {
            bytes_at(all, tag, at + 1, &[4, 5, 128, 255]);
            floats_at(all, tag, &[at + 2, at + 6]);
        } else {
            bytes_at(all, tag, at + 5, &[128, 255]);
            floats_at(all, tag, &[at + 1, at + 6, at + 10]);
        }
        if tag != 0x07 && sheet.edition == Edition::Two {
            bytes_at(all, tag, at + width - 1, &no_roles(tag));
        }
    }
}

/// Values out of range in the field of the song's shape.
fn shape_values(all: &mut Vec<Fault>, body: &[u8]) {
    bytes_at(all, 0x09, 0, &[4, 5, 128, 255]);
    bytes_at(all, 0x09, 2, &[0, 3, 7, 132, 255]);
    bytes_at(all, 0x09, 3, &[5, 6, 128, 255]);
    bytes_at(all, 0x09, 5, &[2, 3, 128, 255]);
    // an ending of the same code with bars that don't fit it
    for (at, code) in [(1, body[0]), (4, body[3])] {
        let fitting: &[u8] = match code {
            0 => &[0],
            4 => &[2],
            _ => &[4, 8],
        };
        let bars: Vec<u8> = (0..=9).chain([12, 16, 132, 255]).collect();
        let others = bars.into_iter().filter(|bars| !fitting.contains(bars));
        bytes_at(all, 0x09, at, &others.collect::<Vec<u8>>());
    }
}

/// Each kind of value out of range at each place of this sheet; and last fields of other songs.
pub fn value_faults(sheet: &Bodies) -> Vec<Fault> {
    let mut all = Vec::new();
    bytes_at(&mut all, 0x01, 0, &[2, 3, 128, 255]);
    bytes_at(&mut all, 0x01, 9, &[4, 5, 128, 255]);
    floats_at(&mut all, 0x02, &[0]);
    for at in 0..sheet.body(0x03).len() {
        bytes_at(&mut all, 0x03, at, &[128, 255]);
    }
    for at in 0..sheet.body(0x04).len() {
        bytes_at(&mut all, 0x04, at, &[12, 128, 255]);
    }
    for events in EVENT_FIELDS {
        event_values(&mut all, events.tag, sheet);
    }
    shape_values(&mut all, sheet.body(0x09));
    let plays = sheet.body(0x0a);
    for (at, &layers) in plays.iter().enumerate() {
        let bits = [16, 32, 64, 128, 0xf0].map(|bit| layers | bit);
        bytes_at(&mut all, 0x0a, at, &bits);
    }
    let others = (Shape::lengths().into_iter()).filter(|&bars| bars != plays.len());
    all.extend(others.map(|bars| fault(0x0a, What::OtherSong(bars))));
    all
}

/// Lengths that no field of a lane has in this edition.
fn no_event_lengths(edition: Edition, events: EventField) -> Vec<usize> {
    let EventField { tag, most } = events;
    let (width, other) = (edition.event_width(tag), edition.other().event_width(tag));
    let full = most * width;
    let beside = [1, width - 1, width + 1, 2 * width - 1, full - 1, full + 1];
    // counted in one byte, some of these are few events
    let above = [most + 1, 255, 256, 257, 65_535 / width].map(|n| n * width);
    let mut all = [&beside[..], &above, &[65_535]].concat();
    if other != width {
        // whole notes of the other edition
        all.extend([2, most].map(|n| n * other));
    }
    all
}

/// Lengths that no sheet's field of this tag has.
fn no_lengths(edition: Edition, tag: u8) -> Vec<usize> {
    if let Some(&events) = EVENT_FIELDS.iter().find(|events| events.tag == tag) {
        return no_event_lengths(edition, events);
    }
    let few: &[usize] = match tag {
        0x00 => &[2, 3, 255, 256, 257],
        0x01 => &[1, 9, 11, 266],
        0x02 => &[1, 3, 5, 8, 260],
        0x03 => &[1, 4, 28, 31, 33, 36, 64, 288],
        0x04 => &[1, 4, 7, 12, 261],
        0x09 => &[1, 5, 7, 12, 262],
        _ => &[1, 16, 24, 30, 31, 33, 35, 61, 62, 63, 65, 66, 72, 288],
    };
    [few, &[0, 65_535]].concat()
}

/// By how much the length in a field's head may be more than the body's, also where that is less modulo 2^16: by a
/// little, by an event of either edition, by its higher byte, and so that it is 0, has its bytes swapped or is far too
/// large.
fn more(len: u16) -> BTreeSet<u16> {
    let little = [1, 2, 10, 14, 15, 256].map(|n: u16| [n, n.wrapping_neg()]);
    let lengths = [0, len.swap_bytes(), 0x7fff, 0x8000 | len, 0xffff];
    let far = lengths.map(|length| length.wrapping_sub(len));
    let all = little.concat().into_iter().chain(far);
    all.filter(|&more| more != 0).collect()
}

/// Fields and bytes too many in front of a field.
fn strays(sheet: &Bodies, of: u8) -> Vec<Vec<u8>> {
    let empty = [0, 0x0b, 0x7f].map(|tag| field(tag, &[]));
    let named = [1, 3].map(|number| field(0x00, &[number]));
    let bytes = STRAY.map(|byte| vec![byte]);
    let mut all = [&empty[..], &named, &bytes].concat();
    if (sheet.edition, of) != (Edition::One, 0x01) || !sheet.fits_other() {
        all.push(front(Edition::Two));
    }
    all
}

/// The faults of one field: tag, length, body, a field or a byte too many in front of it, and its place among the
/// others.
fn field_faults(all: &mut Vec<Fault>, sheet: &Bodies, (of, body): (u8, &[u8])) {
    let tags = [
        0,
        of.wrapping_sub(1),
        of + 1,
        of + 16,
        of | 0x80,
        0x7f,
        0xff,
    ];
    let tags = BTreeSet::from(tags).into_iter().filter(|&tag| tag != of);
    let bodies = no_lengths(sheet.edition, of).into_iter();
    let what = (tags.map(What::Tag))
        .chain(more(body.len() as u16).into_iter().map(What::Length))
        .chain(bodies.map(What::Body))
        .chain(strays(sheet, of).into_iter().map(What::Before))
        .chain([What::Doubled])
        .chain((of + 1..=0x0a).map(What::Swapped));
    all.extend(what.map(|what| fault(of, what)));
    if of != 0x00 || !sheet.fits_other() {
        all.push(fault(of, What::Missing));
    }
    // the last field stands behind all others as it is, and twice there is doubled
    if of < 0x0a {
        all.extend([What::Last, What::Again].map(|what| fault(of, what)));
    }
}

/// Each kind of fault of the fields at each place of this sheet.
pub fn structure_faults(sheet: &Bodies) -> Vec<Fault> {
    let mut all = Vec::new();
    for (of, body) in sheet.fields() {
        field_faults(&mut all, sheet, (of, &body));
    }
    if sheet.edition == Edition::Two {
        let numbers = [0, 1, 3, 128, 255];
        all.extend(numbers.map(|number| fault(0x00, What::Name(number))));
    }
    let again = field(0x0a, sheet.body(0x0a));
    let name = front(Edition::Two);
    for bytes in [&[0], &[1], &[0x0a, 0, 0][..], &[0x0b, 0, 0], &name, &again] {
        all.push(fault(0x0a, What::Behind(bytes.to_vec())));
    }
    all
}
