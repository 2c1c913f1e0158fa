//! Sheets and bar pages of songs, sheets read back, sheets turned into the other edition, lists of a hall's papers, and
//! seeds for lessons: a safe wrapper of include/seqochanu.h. What stands on a sheet is a `Sheet` (sheet.rs), and how it
//! stands there goes by its `Edition` (edition.rs). What a lesson's song is to have are its `Wishes` (lesson.rs).
//!
//! The C functions ask that the buffer is not NULL, that its bytes are set and may be read and written, and that
//! nothing else uses them during the call. A `&mut [u8]` is all of that, an empty one too, a `&[u8]` beside it is what
//! they ask of a sheet that is given, and a `&mut u64` is what they ask of a seed that is to be set, so nothing is left
//! to check.

use std::error::Error;
use std::fmt;

// where this file is a module of a program, the paths find the others beside it, and it may use a part of this
#[path = "edition.rs"]
mod edition;
#[path = "lesson.rs"]
mod lesson;
#[path = "sheet.rs"]
mod sheet;
#[allow(unused_imports)]
pub use edition::Edition;
#[allow(unused_imports)]
pub use lesson::{Key, Wishes, lesson};
#[allow(unused_imports)]
pub use sheet::{Drum, Ending, EndingKind, Form, Hit, Note, Plays, Role, Sheet, Voice};

/// The C functions as they are declared in include/seqochanu.h.
pub mod raw {
    #[link(name = "seqochanu", kind = "static")]
    unsafe extern "C" {
        pub fn seqochanu_sheet(style: u8, seed: u64, buf: *mut u8, len: usize) -> i64;
        pub fn seqochanu_bar_page(style: u8, seed: u64, bar: u64, buf: *mut u8, len: usize) -> i64;
        pub fn seqochanu_hall_list(hall: u64, count: u64, buf: *mut u8, len: usize) -> i64;
        pub fn seqochanu_reread(
            sheet: *const u8,
            sheet_len: usize,
            buf: *mut u8,
            len: usize,
        ) -> i64;
        pub fn seqochanu_to_edition_1(
            sheet: *const u8,
            sheet_len: usize,
            buf: *mut u8,
            len: usize,
        ) -> i64;
        pub fn seqochanu_to_edition_2(
            sheet: *const u8,
            sheet_len: usize,
            buf: *mut u8,
            len: usize,
        ) -> i64;
        pub fn seqochanu_lesson(
            style: u8,
            start: u64,
            count: u64,
            key: u8,
            tempo: u8,
            voice: u8,
            seed: *mut u64,
        ) -> i64;
    }
}

/// No sheet of either edition, page or list is longer, in bytes, no list has more seeds, and no span that is searched.
pub const SHEET_MOST: usize = Edition::Two.sheet_most();
pub const PAGE_MOST: usize = 703;
pub const LIST_MOST: usize = 32768;
pub const COUNT_MOST: u64 = 4096;
pub const SPAN_MOST: u64 = 65536;

/// A song's style; its number is the one on the sheet.
#[derive(Clone, Copy, Debug, PartialEq, Eq)]
#[repr(u8)]
pub enum Style {
    Hiphop = 0,
    Sleep = 1,
}

impl TryFrom<u8> for Style {
    type Error = Refusal;

    fn try_from(number: u8) -> Result<Self, Refusal> {
        match number {
            0 => Ok(Self::Hiphop),
            1 => Ok(Self::Sleep),
            _ => Err(Refusal::UnknownStyle),
        }
    }
}

/// Why nothing was written, or no seed was found, by the numbers of documents 01 and 02.
#[derive(Clone, Copy, Debug, PartialEq, Eq)]
#[repr(u8)]
pub enum Refusal {
    UnknownStyle = 1,
    ShortBuffer = 2,
    NoSuchBar = 3,
    /// given by `Sheet::to_bytes` alone
    Malformed = 4,
    HallCount = 6,
    SheetFields = 7,
    SheetValues = 8,
    OtherSong = 9,
    LessonSpan = 10,
    LessonWish = 11,
    NoSeed = 12,
}

impl fmt::Display for Refusal {
    fn fmt(&self, f: &mut fmt::Formatter<'_>) -> fmt::Result {
        f.write_str(match self {
            Self::UnknownStyle => "no such style",
            Self::ShortBuffer => "the buffer is shorter than the sheet, page or list that is due",
            Self::NoSuchBar => "the song has no such bar",
            Self::Malformed => "no sheet has the value that is to be written",
            Self::HallCount => "the count is outside 1 to 4,096",
            Self::SheetFields => {
                "a field of the sheet is missing, cut off, misplaced or trailing, or has a length that no \
                 sheet has there, or 0x00 has another body than 2"
            }
            Self::SheetValues => {
                "a value of the sheet is out of range, or its field 0x0A has another length than the song"
            }
            Self::OtherSong => {
                "the sheet is not, byte for byte, the one that its style and seed give in its edition"
            }
            Self::LessonSpan => {
                "the count is outside 1 to 65,536, or the span goes past the largest seed"
            }
            Self::LessonWish => "a wish is outside its codes",
            Self::NoSeed => "no seed of the span has all that is wished for",
        })
    }
}

impl Error for Refusal {}

/// The refusal of a C function's answer that is one. No C function refuses with 4 or 5.
fn refusal(answer: i64) -> Refusal {
    match answer {
        -1 => Refusal::UnknownStyle,
        -2 => Refusal::ShortBuffer,
        -3 => Refusal::NoSuchBar,
        -6 => Refusal::HallCount,
        -7 => Refusal::SheetFields,
        -8 => Refusal::SheetValues,
        -9 => Refusal::OtherSong,
        -10 => Refusal::LessonSpan,
        -11 => Refusal::LessonWish,
        -12 => Refusal::NoSeed,
        _ => panic!("no C function refuses with another number: {answer}"),
    }
}

/// The bytes written, or the refusal, of a C function's answer.
fn written(answer: i64) -> Result<usize, Refusal> {
    usize::try_from(answer).map_err(|_| refusal(answer))
}

/// Writes the sheet of a seed's song, in edition 2, from `buf[0]` on; its length. A refusal leaves `buf` as it was.
pub fn sheet(style: Style, seed: u64, buf: &mut [u8]) -> Result<usize, Refusal> {
    let (bytes, len) = (buf.as_mut_ptr(), buf.len());
    written(unsafe { raw::seqochanu_sheet(style as u8, seed, bytes, len) })
}

/// Writes the page of song bar `bar`, counted from 0, in edition 2; its length. A refusal leaves `buf` as it was. A
/// hit that falls before its bar line stands on the page of the bar before.
pub fn bar_page(style: Style, seed: u64, bar: u64, buf: &mut [u8]) -> Result<usize, Refusal> {
    let (bytes, len) = (buf.as_mut_ptr(), buf.len());
    written(unsafe { raw::seqochanu_bar_page(style as u8, seed, bar, bytes, len) })
}

/// Reads a sheet of either edition and writes what was read again, which equals the sheet; its length. A refusal
/// leaves `buf` as it was. Nothing is composed: a sheet may be read that no seed gives. `Sheet::parse` says what
/// stands on it.
pub fn reread(sheet: &[u8], buf: &mut [u8]) -> Result<usize, Refusal> {
    let (bytes, len) = (buf.as_mut_ptr(), buf.len());
    written(unsafe { raw::seqochanu_reread(sheet.as_ptr(), sheet.len(), bytes, len) })
}

/// Takes a song's sheet of either edition and writes that song's sheet in the wanted one; its length. A refusal leaves
/// `buf` as it was. The song is composed from the style and seed that the sheet names, and one that is not that song's
/// is refused with `OtherSong`, after all that `reread` finds. A sheet that is in the wanted edition already is held
/// to the same, and copied.
pub fn convert(sheet: &[u8], wanted: Edition, buf: &mut [u8]) -> Result<usize, Refusal> {
    let call = match wanted {
        Edition::One => raw::seqochanu_to_edition_1,
        Edition::Two => raw::seqochanu_to_edition_2,
    };
    let (bytes, len) = (buf.as_mut_ptr(), buf.len());
    written(unsafe { call(sheet.as_ptr(), sheet.len(), bytes, len) })
}

/// Writes the first `count` seeds of a hall, 8 bytes each; their length. A refusal leaves `buf` as it was.
fn list_into(hall: u64, count: u64, buf: &mut [u8]) -> Result<usize, Refusal> {
    let (bytes, len) = (buf.as_mut_ptr(), buf.len());
    written(unsafe { raw::seqochanu_hall_list(hall, count, bytes, len) })
}

/// The sheet of a seed's song.
pub fn sheet_vec(style: Style, seed: u64) -> Vec<u8> {
    let mut buf = vec![0; SHEET_MOST];
    let len = sheet(style, seed, &mut buf).expect("every song has a sheet, which fits");
    buf.truncate(len);
    buf
}

/// What `convert` writes of a song's sheet. It is never refused with `ShortBuffer`.
pub fn convert_vec(sheet: &[u8], wanted: Edition) -> Result<Vec<u8>, Refusal> {
    let mut buf = vec![0; wanted.sheet_most()];
    let len = convert(sheet, wanted, &mut buf)?;
    buf.truncate(len);
    Ok(buf)
}

/// The pages of a song, from its first bar to its last.
pub fn pages(style: Style, seed: u64) -> impl Iterator<Item = Vec<u8>> {
    (0..).map_while(move |bar| {
        let mut buf = vec![0; PAGE_MOST];
        // the buffer has room for every page, so a refusal says that the song is over
        let len = bar_page(style, seed, bar, &mut buf).ok()?;
        buf.truncate(len);
        Some(buf)
    })
}

/// The first `count` paper numbers of a hall, 1 to `COUNT_MOST` of them; no two are equal.
pub fn hall_list(hall: u64, count: u64) -> Result<Vec<u64>, Refusal> {
    // a greater count is refused whatever the buffer, so the longest list's room is enough to ask with
    let mut seeds = vec![[0; 8]; count.min(COUNT_MOST) as usize];
    list_into(hall, count, seeds.as_flattened_mut())?;
    Ok(seeds.into_iter().map(u64::from_be_bytes).collect())
}

#[cfg(test)]
#[path = "convert_tests.rs"]
mod convert_tests;

#[cfg(test)]
#[path = "pages_tests.rs"]
mod pages_tests;

#[cfg(test)]
#[path = "roles_tests.rs"]
mod roles_tests;

#[cfg(test)]
#[path = "calls_tests.rs"]
mod tests;
