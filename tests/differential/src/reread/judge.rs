//! The driver's own reader of sheets of both editions, by documents 01 and 02 alone. It composes nothing and writes
//! nothing: it says whether bytes are a sheet, and else by which number they are refused.

use crate::bytes::front;
use crate::edition::{BACKING, Edition, HIT_WIDTH};

/// Document 02's refusals of a sheet: its fields, and only then its values.
pub const FIELDS: i64 = 7;
pub const VALUES: i64 = 8;

/// Whether the bytes are a sheet. A fault of the fields anywhere comes before a fault of a value anywhere.
pub fn judge(sheet: &[u8]) -> Result<(), i64> {
    let edition = Edition::of(sheet);
    let bodies = bodies(edition, sheet).ok_or(FIELDS)?;
    match within(edition, bodies) {
        true => Ok(()),
        false => Err(VALUES),
    }
}

/// The bodies of ten fields in their order, each of a length that some sheet has there, with nothing behind them, and
/// before them nothing but what leads the edition.
fn bodies(edition: Edition, sheet: &[u8]) -> Option<[&[u8]; 10]> {
    let mut rest = sheet.strip_prefix(&front(edition)[..])?;
    let mut bodies = [&[][..]; 10];
    for (tag, body) in (0x01..).zip(&mut bodies) {
        let (head, after) = rest.split_first_chunk::<3>()?;
        let length = u16::from_be_bytes([head[1], head[2]]).into();
        if head[0] != tag || !may_have(edition, tag, length) {
            return None;
        }
        (*body, rest) = after.split_at_checked(length)?;
    }
    rest.is_empty().then_some(bodies)
}

/// Whether some sheet's field of this tag has this length.
fn may_have(edition: Edition, tag: u8, length: usize) -> bool {
    let width = edition.event_width(tag);
    let events = |most: usize| length <= most * width && length % width == 0;
    match tag {
        0x01 => length == 10,
        0x02 => length == 4,
        0x03 => length == 8 * 4,
        0x04 => length == 5 || length == 6,
        0x05 => events(56),
        0x06 => events(128),
        0x07 => events(98),
        0x08 => events(104),
        0x09 => length == 6,
        _ => song_lengths().any(|bars| bars == length),
    }
}

/// The bars that a song can have: none, 4 or 8 of intro, 4 to 6 phrases, and an outro that may also ring out.
fn song_lengths() -> impl Iterator<Item = usize> {
    let intros = [0, 4, 8].into_iter();
    intros.flat_map(|intro| {
        (4..=6).flat_map(move |phrases| [0, 2, 4, 8].map(|outro| intro + 8 * phrases + outro))
    })
}

/// Whether each value is in its range, and the last field has a byte for each bar of this very song.
fn within(edition: Edition, bodies: [&[u8]; 10]) -> bool {
    let [song, tempo, chords, scale, lanes @ .., form, plays] = bodies;
    let [lead, keys, hits, bass] = lanes;
    let named = song[0] < 2 && song[9] < 4;
    let harmony = chords.iter().all(|&note| note < 128) && scale.iter().all(|&class| class < 12);
    let notes = |lane: &[u8], may_be: fn(u8) -> bool| {
        let mut notes = lane.chunks_exact(edition.note_width());
        notes.all(|note| is_note(note, may_be))
    };
    let lead = notes(lead, |role| role < BACKING);
    let backing = [keys, bass].map(|lane| notes(lane, |role| role == BACKING));
    let hits = hits.chunks_exact(HIT_WIDTH).all(is_hit);
    let played = bars_of(form) == Some(plays.len()) && plays.iter().all(|&layers| layers < 16);
    named && is_finite(tempo) && harmony && lead && backing == [true; 2] && hits && played
}

/// Whether these four bytes are the bits of a number: no infinity and no NaN. Any other number will do.
fn is_finite(bits: &[u8]) -> bool {
    let bits = bits.try_into().expect("an f32 has four bytes");
    f32::from_bits(u32::from_be_bytes(bits)).is_finite()
}

/// A note: bar, time, MIDI note, velocity, duration, and in edition 2 one of the roles that it may have.
fn is_note(note: &[u8], may_be: fn(u8) -> bool) -> bool {
    let (floats, role) = ([&note[1..5], &note[6..10], &note[10..14]], &note[14..]);
    let told = role.iter().all(|&role| may_be(role));
    note[0] < 8 && note[5] < 128 && floats.into_iter().all(is_finite) && told
}

/// A hit: bar, kind, time, gain.
fn is_hit(hit: &[u8]) -> bool {
    hit[0] < 8 && hit[1] < 4 && is_finite(&hit[2..6]) && is_finite(&hit[6..10])
}

/// The bars of the song that these six bytes tell, if they tell one.
fn bars_of(form: &[u8]) -> Option<usize> {
    let &[intro, intro_bars, phrases, outro, outro_bars, dip] = form else {
        return None;
    };
    let sound = intro < 4
        && fits(intro, intro_bars)
        && (4..=6).contains(&phrases)
        && outro < 5
        && fits(outro, outro_bars)
        && dip < 2;
    let bars = usize::from(intro_bars) + 8 * usize::from(phrases) + usize::from(outro_bars);
    sound.then_some(bars)
}

/// Whether an ending of this code can have so many bars: a cold one has none, one that rings out has 2.
fn fits(code: u8, bars: u8) -> bool {
    match code {
        0 => bars == 0,
        4 => bars == 2,
        _ => bars == 4 || bars == 8,
    }
}
