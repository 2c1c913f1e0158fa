//! What is measured: each case, done by our libraries and by the Rust for the same song, or by plain C for the same
//! hall; and a sheet read back beside the same sheet composed, by our library and by the Rust.

use crate::compose::reach::STYLES;
use crate::compose::song::{Song, song};
use crate::compose::{Form, arrange};
use crate::seqochanu::raw::seqochanu_hall_list;
use crate::seqochanu::{
    self, COUNT_MOST, Edition, LIST_MOST, PAGE_MOST, Refusal, SHEET_MOST, Sheet, Style,
};
use crate::{sum, writer};
use std::hint::black_box;

mod raw {
    #[link(name = "probe", kind = "static")]
    unsafe extern "C" {
        pub safe fn probe_song(style: u8, seed: u64) -> u64;
    }

    #[link(name = "roundtrip", kind = "static")]
    unsafe extern "C" {
        pub fn roundtrip_sheet(sheet: *const u8, sheet_len: usize, buf: *mut u8, len: usize) -> u8;
        pub fn roundtrip_read(sheet: *const u8, sheet_len: usize) -> u8;
    }

    // hall.c's
    unsafe extern "C" {
        pub fn plain_hall_list(hall: u64, count: usize, buf: *mut u8) -> usize;
    }
}

/// A song to be made, how many bars it has, which a player has read on its sheet, and that sheet, to be read back, in
/// edition 2 and in edition 1. To a case of halls its seed is a hall's number, and to a search the first of the span.
#[derive(Clone, Copy)]
pub struct Asked {
    pub style: u8,
    pub seed: u64,
    pub bars: u64,
    pub sheet: &'static [u8],
    pub old_sheet: &'static [u8],
}

impl Asked {
    /// Even seeds as they are, odd ones with their bits reversed, as tests/differential has them.
    pub fn new(style: u8, i: u64) -> Self {
        let seed = if i % 2 == 0 { i } else { i.reverse_bits() };
        let bars = arrange(seed).bars() as u64;
        // kept to the end of the run, so that a round finds the sheets made
        let sheet = seqochanu::sheet_vec(ours(style), seed).leak();
        let old_sheet = seqochanu::convert_vec(sheet, Edition::One);
        let old_sheet = old_sheet.expect("a song's sheet").leak();
        Self {
            style,
            seed,
            bars,
            sheet,
            old_sheet,
        }
    }

    /// The sheet in both editions.
    pub fn sheets(self) -> [&'static [u8]; 2] {
        [self.sheet, self.old_sheet]
    }

    pub fn ours(self) -> Style {
        ours(self.style)
    }

    fn rust(self) -> (Song, Form) {
        let style = STYLES[usize::from(self.style)];
        (song(style, self.seed), arrange(self.seed))
    }
}

fn ours(style: u8) -> Style {
    Style::try_from(style).expect("both styles are asked for")
}

/// One of a song's sheets.
type OneOf = fn(Asked) -> &'static [u8];

/// One way to do a case: it answers a number that tells its work. Where sheets are to be at hand, each of their bytes
/// is looked at before the side's turn. Instructions are counted but where another case has the same.
pub struct Side {
    pub name: &'static str,
    pub at_hand: Option<OneOf>,
    pub counted: bool,
    pub run: Box<dyn FnMut(Asked) -> u64>,
}

impl Side {
    /// Whose side it is: its name without how it goes about its work.
    pub fn whose(&self) -> &str {
        self.name.split(',').next().unwrap_or(self.name)
    }
}

pub const BOTH: &[u8] = &[0, 1];

/// The first side is ours, and the others are set beside it. `batch` songs are made in a round. Where the style says
/// nothing, `styles` has just one.
pub struct Case {
    pub name: &'static str,
    pub styles: &'static [u8],
    pub batch: usize,
    pub sides: Vec<Side>,
}

impl Case {
    /// Its name, behind the style where that says something.
    pub fn title(&self, style: u8) -> String {
        match self.styles {
            [_] => self.name.into(),
            _ => format!("style {style}, {}", self.name),
        }
    }
}

pub fn side(name: &'static str, run: impl FnMut(Asked) -> u64 + 'static) -> Side {
    let run = Box::new(run);
    Side {
        name,
        at_hand: None,
        counted: true,
        run,
    }
}

/// Compose and arrange; every number of the song is summed, so that none can be left out.
fn songs() -> Case {
    Case {
        name: "compose and arrange",
        styles: BOTH,
        batch: 20,
        sides: vec![
            side("ours", |a| raw::probe_song(a.style, a.seed)),
            side("Rust", |a| {
                let (song, form) = a.rust();
                sum::kept(&song, &form)
            }),
        ],
    }
}

fn sheets() -> Case {
    Case {
        name: "sheet",
        styles: BOTH,
        batch: 20,
        sides: vec![composing("ours"), rust_composing("Rust")],
    }
}

/// Every page of a song by a call of its own. Ours composes in each call; the Rust in one side too, and in the
/// other once for all pages, which asks the caller to keep the song.
fn pages() -> Case {
    let mut ours = [0; PAGE_MOST];
    let mut each = [0; PAGE_MOST];
    let mut once = [0; PAGE_MOST];
    let ours = move |a: Asked| {
        let mut page = |bar| seqochanu::bar_page(a.ours(), a.seed, bar, &mut ours);
        (0..a.bars)
            .map(|bar| black_box(page(bar)).expect("room") as u64)
            .sum()
    };
    let each = move |a: Asked| {
        let mut page = |bar| {
            let (song, form) = a.rust();
            writer::page(&song, &form, bar as usize, &mut each)
        };
        (0..a.bars).map(|bar| black_box(page(bar)) as u64).sum()
    };
    let once = move |a: Asked| {
        let (song, form) = a.rust();
        let mut page = |bar| writer::page(&song, &form, bar as usize, &mut once);
        (0..a.bars).map(|bar| black_box(page(bar)) as u64).sum()
    };
    Case {
        name: "all pages",
        styles: BOTH,
        batch: 2,
        sides: vec![
            side("ours", ours),
            side("Rust, composing for each page", each),
            side("Rust, composing once", once),
        ],
    }
}

/// The length of our list of a hall, the longest that there is.
fn our_list(hall: u64, buf: &mut [u8; LIST_MOST]) -> usize {
    let answer = unsafe { seqochanu_hall_list(hall, COUNT_MOST, buf.as_mut_ptr(), LIST_MOST) };
    usize::try_from(answer).expect("room")
}

/// The same by plain C.
fn plain_list(hall: u64, buf: &mut [u8; LIST_MOST]) -> usize {
    unsafe { raw::plain_hall_list(hall, COUNT_MOST as usize, buf.as_mut_ptr()) }
}

fn lists() -> Case {
    let list = |name, list: fn(u64, &mut [u8; LIST_MOST]) -> usize| {
        let mut buf = [0; LIST_MOST];
        side(name, move |a| {
            let len = list(a.seed, &mut buf);
            black_box(&buf)[..len].len() as u64
        })
    };
    Case {
        name: "hall list",
        styles: &[0],
        batch: 20,
        sides: vec![list("ours", our_list), list("C", plain_list)],
    }
}

/// The sheet of a song composed, which a reading is set beside too.
fn composing(name: &'static str) -> Side {
    let mut buf = [0; SHEET_MOST];
    side(name, move |a| {
        let len = seqochanu::sheet(a.ours(), a.seed, &mut buf).expect("room");
        black_box(&buf)[..len].len() as u64
    })
}

/// The same by the Rust, with a writer that allocates nothing.
fn rust_composing(name: &'static str) -> Side {
    let mut buf = [0; SHEET_MOST];
    side(name, move |a| {
        let (song, form) = a.rust();
        let len = writer::sheet(a.style, a.seed, &song, &form, &mut buf);
        black_box(&buf)[..len].len() as u64
    })
}

/// A case of sheets read, beside composing them, which another case counts. A sheet from memory takes the same
/// instructions as one at hand.
fn beside_composing(name: &'static str, at_hand: Option<OneOf>, reading: Side) -> Case {
    let uncounted = |side| Side {
        counted: false,
        ..side
    };
    let reading = Side {
        at_hand,
        counted: at_hand.is_some(),
        ..reading
    };
    Case {
        name,
        styles: BOTH,
        batch: 20,
        sides: vec![
            reading,
            uncounted(composing("composing")),
            uncounted(rust_composing("the Rust composing")),
        ],
    }
}

/// A sheet read and not written: a buffer of no bytes is refused only when the whole sheet is read.
fn reading(name: &'static str, sheet: OneOf, at_hand: bool) -> Case {
    let reading = move |a: Asked| match black_box(seqochanu::reread(sheet(a), &mut [])) {
        Err(Refusal::ShortBuffer) => sheet(a).len() as u64,
        other => panic!("{other:?} for a song's sheet"),
    };
    beside_composing(name, at_hand.then_some(sheet), side("reading", reading))
}

/// A sheet read, and what was read written again.
fn rereading() -> Case {
    let mut buf = [0; SHEET_MOST];
    let rereading = move |a: Asked| {
        let len = seqochanu::reread(a.sheet, &mut buf).expect("a song's sheet, and room");
        black_box(&buf)[..len].len() as u64
    };
    let name = "sheet read and written again";
    beside_composing(
        name,
        Some(|a| a.sheet),
        side("reading and writing", rereading),
    )
}

/// The refusal of a sheet that is read into a song; 0 for none.
fn read(sheet: &[u8]) -> u8 {
    unsafe { raw::roundtrip_read(sheet.as_ptr(), sheet.len()) }
}

/// A sheet read into a song.
fn reading_a_song() -> Case {
    let reading = |a: Asked| {
        assert_eq!(black_box(read(a.sheet)), 0, "a song's sheet");
        a.sheet.len() as u64
    };
    let name = "sheet read into a song";
    beside_composing(name, Some(|a| a.sheet), side("reading", reading))
}

/// The refusal of a sheet that is read into a song, which the canonical writer then writes; 0 for none.
fn roundtrip(sheet: &[u8], buf: &mut [u8]) -> u8 {
    unsafe { raw::roundtrip_sheet(sheet.as_ptr(), sheet.len(), buf.as_mut_ptr(), buf.len()) }
}

/// The same by way of the song: what a program in Rattle pays that reads a value and writes it.
fn round_tripping() -> Case {
    let mut buf = [0; SHEET_MOST];
    let trip = move |a: Asked| {
        assert_eq!(roundtrip(a.sheet, &mut buf), 0, "a song's sheet, and room");
        black_box(&buf)[..a.sheet.len()].len() as u64
    };
    let name = "sheet read into a song, and the song written";
    beside_composing(name, Some(|a| a.sheet), side("reading and writing", trip))
}

/// A sheet of edition 1 converted to edition 2, as a library's are: it is read, its song composed, and both its sheets
/// are written, one to be compared with what was read.
fn converting() -> Case {
    let mut buf = [0; SHEET_MOST];
    let converting = move |a: Asked| {
        let answer = seqochanu::convert(a.old_sheet, Edition::Two, &mut buf);
        let len = answer.expect("a song's sheet, and room");
        black_box(&buf)[..len].len() as u64
    };
    let name = "sheet of edition 1 converted to edition 2";
    beside_composing(name, Some(|a| a.old_sheet), side("converting", converting))
}

pub fn of_songs() -> [Case; 3] {
    [songs(), sheets(), pages()]
}

pub fn of_readings() -> [Case; 7] {
    [
        reading("sheet read", |a| a.sheet, true),
        reading("sheet read from memory", |a| a.sheet, false),
        reading("sheet of edition 1 read", |a| a.old_sheet, true),
        rereading(),
        reading_a_song(),
        round_tripping(),
        converting(),
    ]
}

pub fn of_halls() -> [Case; 1] {
    [lists()]
}

/// Stops where our libraries and the Rust differ on a song: then the times would not be those of the same work. The
/// roles are left out, as the Rust tells none: for this once they are taken from our sheet.
pub fn check(a: Asked) {
    let (mut song, form) = a.rust();
    let told = Sheet::parse(a.sheet).expect("a song's sheet").lead;
    for (role, note) in song.roles.iter_mut().zip(told) {
        *role = note.role as u8;
    }
    let rust = sum::kept(&song, &form) + sum::bars(&song);
    let what = format!("of {:#x} in style {}", a.seed, a.style);
    assert_eq!(raw::probe_song(a.style, a.seed), rust, "the sum {what}");
    let mut bytes = [0; SHEET_MOST];
    let len = writer::sheet(a.style, a.seed, &song, &form, &mut bytes);
    assert_eq!(a.sheet, &bytes[..len], "the sheet {what}");
    let mut bars = 0;
    for (bar, ours) in seqochanu::pages(a.ours(), a.seed).enumerate() {
        let len = writer::page(&song, &form, bar, &mut bytes);
        assert_eq!(ours, &bytes[..len], "page {bar} {what}");
        bars += 1;
    }
    assert_eq!(bars, a.bars, "the pages {what}");
}

/// Stops where a song's sheet, of either edition, is not read, is not written again byte for byte, or does not become
/// the sheet of the other edition.
pub fn check_reading(a: Asked) {
    let what = format!("the sheet of {:#x} in style {}", a.seed, a.style);
    for sheet in a.sheets() {
        let none = seqochanu::reread(sheet, &mut []);
        assert_eq!(none, Err(Refusal::ShortBuffer), "{what}");
        // no byte is right before the call
        let mut again: Vec<u8> = sheet.iter().map(|byte| !byte).collect();
        let len = seqochanu::reread(sheet, &mut again);
        assert_eq!(len, Ok(sheet.len()), "{what}");
        assert_eq!(again, sheet, "{what}");
        again.iter_mut().for_each(|byte| *byte = !*byte);
        assert_eq!(roundtrip(sheet, &mut again), 0, "{what}");
        assert_eq!(again, sheet, "{what}, by its song");
        let both = [Edition::Two, Edition::One].map(|wanted| seqochanu::convert_vec(sheet, wanted));
        assert_eq!(both, a.sheets().map(|sheet| Ok(sheet.into())), "{what}");
    }
}

/// Stops where our list of a hall and that of plain C differ.
pub fn check_list(hall: u64) {
    let (mut ours, mut plain) = ([0; LIST_MOST], [0; LIST_MOST]);
    let lengths = [our_list(hall, &mut ours), plain_list(hall, &mut plain)];
    assert_eq!(
        lengths, [LIST_MOST; 2],
        "the length of hall {hall:#x}'s list"
    );
    assert!(ours == plain, "the list of hall {hall:#x}");
}
