//! Sheets and bar pages in bytes, laid out from the Rust's own songs and forms by document 01. The two editions, and
//! the hits of a page, of which the early ones are moved, are document 02's.

use crate::compose::reach::form::{dips, intro_code, outro_code, phrases, plays_at};
use crate::compose::reach::{Hit, Note, STYLES, Take, kind_code, take, voice_code};
use crate::compose::{Form, arrange};
use crate::early::{drums_at, is_early, shows};
use crate::edition::{BACKING, Edition, HIT_WIDTH, PAGE_MOST};

/// A lane's field, and the bit of the layer that it follows on a page.
struct Lane {
    tag: u8,
    layer: u64,
}

const fn lane(tag: u8, layer: u64) -> Lane {
    Lane { tag, layer }
}

/// The edition that pages are in.
const PAGES: Edition = Edition::Two;

const PAD: u64 = 1;
const LEAD: Lane = lane(0x05, 2);
const KEYS: Lane = lane(0x06, 2);
const HITS: Lane = lane(0x07, 4);
const BASS: Lane = lane(0x08, 8);

/// A field: a one-byte tag, a two-byte length, a body.
pub fn field(tag: u8, body: &[u8]) -> Vec<u8> {
    let length = u16::try_from(body.len()).expect("two bytes hold a body's length");
    [&[tag], &length.to_be_bytes()[..], body].concat()
}

/// What leads a sheet or page of this edition.
pub fn front(edition: Edition) -> Vec<u8> {
    let name = edition.name();
    name.map_or(Vec::new(), |number| field(0x00, &[number]))
}

fn byte(n: usize) -> u8 {
    u8::try_from(n).expect("a byte holds the number")
}

fn float(x: f32) -> [u8; 4] {
    x.to_bits().to_be_bytes()
}

fn note(edition: Edition, (n, role): &(Note, u8), bar: u8) -> Vec<u8> {
    let (at, vel, dur) = (float(n.at), float(n.vel), float(n.dur));
    let role = match edition {
        Edition::One => &[][..],
        Edition::Two => &[*role],
    };
    [&[bar], &at[..], &[n.midi], &vel, &dur, role].concat()
}

fn hit(h: &Hit, bar: u8) -> Vec<u8> {
    let (at, gain) = (float(h.at), float(h.gain));
    [&[bar, kind_code(h) as u8], &at[..], &gain].concat()
}

/// Those events that are `shown`, by the event and the loop bar that it was drawn for, each of this width.
fn laid<E>(
    width: usize,
    (events, bars): (&[E], &[u64]),
    bytes: impl Fn(&E, u8) -> Vec<u8>,
    shown: impl Fn(&E, u64) -> bool,
) -> Vec<u8> {
    (events.iter().zip(bars))
        .filter(|(event, bar)| shown(event, **bar))
        .flat_map(|(event, bar)| {
            let bytes = bytes(event, *bar as u8);
            assert_eq!(bytes.len(), width, "each event has its width");
            bytes
        })
        .collect()
}

/// Those hits that are `shown`.
fn laid_hits(take: &Take, shown: impl Fn(&Hit, u64) -> bool) -> Vec<u8> {
    let hits = (&take.score.drums[..], &take.bars.hits[..]);
    laid(HIT_WIDTH, hits, hit, shown)
}

/// The lanes' fields, 0x05 to 0x08: the notes that are `shown` by layer and bar, and these `hits`.
fn lanes(edition: Edition, take: &Take, shown: impl Fn(u64, u64) -> bool, hits: &[u8]) -> Vec<u8> {
    let (score, bars) = (&take.score, &take.bars);
    let notes = |lane: Lane, notes: &[Note], bars: &[u64], roles: &[u8]| {
        let notes: Vec<(Note, u8)> = notes.iter().copied().zip(roles.iter().copied()).collect();
        let bytes = |n: &(Note, u8), bar: u8| note(edition, n, bar);
        let here = |_: &(Note, u8), bar: u64| shown(lane.layer, bar);
        let body = laid(edition.note_width(), (&notes, bars), bytes, here);
        field(lane.tag, &body)
    };
    let backing = |notes: &[Note]| vec![BACKING; notes.len()];
    [
        notes(LEAD, &score.sparkle, &bars.lead, &take.roles),
        notes(KEYS, &score.keys, &bars.keys, &backing(&score.keys)),
        field(HITS.tag, hits),
        notes(BASS, &score.bass, &bars.bass, &backing(&score.bass)),
    ]
    .concat()
}

/// The fields before the lanes, 0x01 to 0x04.
fn head(style: u8, seed: u64, take: &Take) -> Vec<u8> {
    let score = &take.score;
    let voice = voice_code(score) as u8;
    [
        field(
            0x01,
            &[&[style], &seed.to_be_bytes()[..], &[voice]].concat(),
        ),
        field(0x02, &float(score.bpm)),
        field(0x03, &score.bar_chords.concat()),
        field(0x04, &take.scale),
    ]
    .concat()
}

/// The fields of the form, 0x09 and 0x0A.
fn tail(form: &Form) -> Vec<u8> {
    let ends = [
        intro_code(form),
        byte(form.intro()),
        byte(phrases(form)),
        outro_code(form),
        byte(form.outro()),
        dips(form).into(),
    ];
    let plays: Vec<u8> = (0..form.bars())
        .map(|bar| plays_at(form, bar) as u8)
        .collect();
    [field(0x09, &ends), field(0x0a, &plays)].concat()
}

pub fn sheet(edition: Edition, style: u8, seed: u64, take: &Take, form: &Form) -> Vec<u8> {
    let hits = laid_hits(take, |_, _| true);
    let lanes = lanes(edition, take, |_, _| true, &hits);
    let parts = [front(edition), head(style, seed, take), lanes, tail(form)];
    let bytes = parts.concat();
    let (n, most) = (bytes.len(), edition.sheet_most());
    assert!(n <= most, "a sheet of {n} bytes in {edition:?}");
    bytes
}

/// A page's hits: those of its own bar that are not early, in bar 0 all of them, as no page is before; then the early
/// ones of the bar after. Where a bar's drums are silent, or the song has no such bar, none of its hits are played.
fn page_hits(take: &Take, form: &Form, bar: usize) -> Vec<u8> {
    let played = |bar: usize, of: u64| drums_at(form, bar) && of == shows(form, bar);
    let own = laid_hits(take, |hit, of| {
        played(bar, of) && (bar == 0 || !is_early(take, hit, of))
    });
    let after = laid_hits(take, |hit, of| {
        played(bar + 1, of) && is_early(take, hit, of)
    });
    [own, after].concat()
}

/// The page of song bar `bar`: the chord and the notes of the loop bar that it shows, nothing of a layer that is
/// silent there, and its hits.
pub fn page(take: &Take, form: &Form, bar: usize) -> Vec<u8> {
    let (plays, shows) = (plays_at(form, bar), shows(form, bar));
    let chord: &[u8] = match plays & PAD {
        0 => &[],
        _ => &take.score.bar_chords[shows as usize],
    };
    let here = |layer, of| plays & layer != 0 && of == shows;
    let lanes = lanes(PAGES, take, here, &page_hits(take, form, bar));
    let bytes = [front(PAGES), field(0x03, chord), lanes].concat();
    assert!(bytes.len() <= PAGE_MOST, "a page of {}", bytes.len());
    bytes
}

/// The sheet of a seed's song.
pub fn sheet_of(edition: Edition, style: u8, seed: u64) -> Vec<u8> {
    let take = take(STYLES[usize::from(style)], seed);
    sheet(edition, style, seed, &take, &arrange(seed))
}
