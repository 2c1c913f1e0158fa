//! Sheets converted to an edition: the answer, every byte written, and every byte that must stay. What is written is
//! the sheet of the song that the bytes name, laid out from the Rust's own song; which bytes are taken say the driver's
//! own reader and that song.

mod by_hand;
mod changes;
mod edges;

use crate::bytes::{front, sheet};
use crate::calls::compare_call;
use crate::compose::arrange;
use crate::compose::reach::{STYLES, take};
use crate::edition::{EDITIONS, Edition};
use crate::reread::faults::{Fault, faulty, structure_faults, value_faults};
use crate::reread::judge::judge;
use crate::reread::sheets::{Bodies, Draws};
use crate::tally::Tally;
use crate::{ours, songs};
use changes::{changed, value_changed};
use std::borrow::Cow;

/// Document 02's refusal of a sheet that is not the one of its seed, after the reader's own.
const NOT_THE_SEEDS: i64 = 9;

/// A seed's song in one style, as the Rust composes it, on its sheets of both editions.
#[derive(Clone)]
pub struct Song {
    pub style: u8,
    pub seed: u64,
    sheets: [Vec<u8>; 2],
}

/// The style and the seed that a sheet names in its field 0x01.
fn named(sheet: &[u8]) -> (u8, u64) {
    let body = &sheet[front(Edition::of(sheet)).len() + 3..];
    let seed = body[1..9].try_into().expect("a seed has eight bytes");
    (body[0], u64::from_be_bytes(seed))
}

impl Song {
    pub fn of(style: u8, seed: u64) -> Song {
        let (take, form) = (take(STYLES[usize::from(style)], seed), arrange(seed));
        let sheets = EDITIONS.map(|edition| sheet(edition, style, seed, &take, &form));
        Song {
            style,
            seed,
            sheets,
        }
    }

    pub fn sheet(&self, edition: Edition) -> &[u8] {
        &self.sheets[edition as usize]
    }

    fn bodies(&self, edition: Edition) -> Bodies {
        Bodies::of(self.sheet(edition))
    }

    /// The song that these bytes name, which is composed if it is not this one; or the refusal, where they are not
    /// that song's sheet in the edition that they are in.
    fn song_of(&self, bytes: &[u8]) -> Result<Cow<'_, Song>, i64> {
        judge(bytes)?;
        let (style, seed) = named(bytes);
        let song = match (style, seed) == (self.style, self.seed) {
            true => Cow::Borrowed(self),
            false => Cow::Owned(Song::of(style, seed)),
        };
        match song.sheet(Edition::of(bytes)) == bytes {
            true => Ok(song),
            false => Err(NOT_THE_SEEDS),
        }
    }

    /// What bytes become in the wanted edition, by document 02, or the number of its refusal.
    pub fn converted(&self, bytes: &[u8], wanted: Edition) -> Result<Vec<u8>, i64> {
        let song = self.song_of(bytes)?;
        Ok(song.sheet(wanted).to_vec())
    }

    fn name(&self, edition: Edition) -> String {
        let Song { style, seed, .. } = self;
        format!("the sheet of {seed:#x} in style {style}, {edition:?}")
    }
}

/// Bytes converted to each edition, into buffers whose lengths follow from that of this song's sheet in the wanted
/// edition. That sheet might be written, also where the bytes are refused: one that is written before the refusal has
/// to show.
fn compare_to_each<L: IntoIterator<Item = usize>>(
    tally: &mut Tally,
    what: impl Fn() -> String,
    song: &Song,
    bytes: &[u8],
    lens: impl Fn(usize) -> L,
) {
    let source = song.song_of(bytes);
    for wanted in EDITIONS {
        let asked = source.as_ref().map(|song| song.sheet(wanted));
        let (asked, might) = (asked.map_err(|&number| number), song.sheet(wanted));
        for len in lens(might.len()) {
            let what = || format!("{}, converted to {wanted:?}", what());
            compare_call(tally, what, asked, might, len, |buf| {
                ours::to_edition(bytes, wanted, buf)
            });
        }
    }
}

/// The song's own sheet, into buffers whose lengths follow from what has to be written.
fn compare_own<L: IntoIterator<Item = usize>>(
    tally: &mut Tally,
    song: &Song,
    edition: Edition,
    lens: impl Fn(usize) -> L,
) {
    let (what, bytes) = (|| song.name(edition), song.sheet(edition));
    assert!(song.song_of(bytes).is_ok(), "{} is taken", what());
    compare_to_each(tally, what, song, bytes, lens);
}

/// Bytes that are refused by this number, into a buffer with room to spare for the song's sheet, and into one of no
/// places: the refusal comes before that of a short buffer.
fn compare_refused(
    tally: &mut Tally,
    what: impl Fn() -> String,
    song: &Song,
    bytes: &[u8],
    number: i64,
) {
    assert_eq!(song.song_of(bytes).err(), Some(number), "{}", what());
    compare_to_each(tally, what, song, bytes, |n| [n + 40, 0]);
}

/// The song's sheet with one thing changed that the reader takes, so that the seed's song alone can tell.
fn compare_changed(tally: &mut Tally, song: &Song, (change, sheet): (&str, &Bodies)) {
    let bytes = sheet.bytes();
    let what = || format!("{}, {change}, now {bytes:x?}", song.name(sheet.edition));
    assert_eq!(judge(&bytes), Ok(()), "{}", what());
    compare_refused(tally, what, song, &bytes, NOT_THE_SEEDS);
}

/// Of one seed's songs the sheets of both editions, each converted to both, into buffers with room to spare, just as
/// long as what has to be written and a byte short; and each with one thing changed.
pub fn compare_seed(tally: &mut Tally, seed: u64) {
    let draws = &mut Draws::of(seed);
    for style in [0, 1] {
        let song = Song::of(style, seed);
        for edition in EDITIONS {
            compare_own(tally, &song, edition, |n| [n + 40, n, n - 1]);
            let (change, sheet) = changed(draws, &song.bodies(edition));
            compare_changed(tally, &song, (change, &sheet));
        }
    }
}

/// The song's sheet, in which something may be changed, with a fault for which the reader refuses it before the seed
/// is asked.
fn compare_fault(tally: &mut Tally, song: &Song, (change, sheet): (&str, &Bodies), fault: &Fault) {
    let (name, bytes) = (|| song.name(sheet.edition), faulty(sheet, &[fault]));
    let what = || format!("{}, {change}, {fault:?}, now {bytes:x?}", name());
    compare_refused(tally, what, song, &bytes, fault.number());
}

/// How many values are changed in a sheet, and how many faults of values and of fields are tried in it.
const FAULTS: usize = 6;

/// The song's sheet with a value changed, with a fault, and with both.
fn compare_faults(tally: &mut Tally, draws: &mut Draws, song: &Song, edition: Edition) {
    let sheet = song.bodies(edition);
    let (values, structure) = (value_faults(&sheet), structure_faults(&sheet));
    for _ in 0..FAULTS {
        let (change, changed) = value_changed(draws, &sheet);
        compare_changed(tally, song, (change, &changed));
        for fault in [draws.one_of(&values), draws.one_of(&structure)] {
            compare_fault(tally, song, ("nothing else", &sheet), fault);
            compare_fault(tally, song, (change, &changed), fault);
        }
    }
}

/// A sheet that no seed gives. That of the song which it names might be written.
fn compare_of_none(tally: &mut Tally, sheet: &Bodies) {
    let bytes = sheet.bytes();
    let (style, seed) = named(&bytes);
    let what = || format!("{bytes:x?}");
    compare_refused(tally, what, &Song::of(style, seed), &bytes, NOT_THE_SEEDS);
}

/// Of one seed's songs the sheets of both editions with faults, and beside each of them a drawn sheet that no seed
/// gives.
pub fn compare_made(tally: &mut Tally, seed: u64) {
    let draws = &mut Draws::of(!seed);
    for style in [0, 1] {
        let song = Song::of(style, seed);
        for edition in EDITIONS {
            compare_faults(tally, draws, &song, edition);
            let (counts, shape) = (draws.counts(), draws.shape());
            compare_of_none(tally, &draws.sheet(edition, counts, shape));
        }
    }
}

/// Inputs at the limits, and the seeds of songs that are rare.
pub fn compare_edges(tally: &mut Tally) {
    by_hand::assert_converted();
    edges::compare_all(tally);
    for seed in songs::RARE {
        compare_seed(tally, seed);
        compare_made(tally, seed);
    }
}
