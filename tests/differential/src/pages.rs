//! The sheets and bar pages: the answer, every byte written, and every byte that must stay.

use crate::bytes::{page, sheet};
use crate::calls::{Asked, compare_call};
use crate::compose::reach::{STYLES, Take, take};
use crate::compose::{Form, arrange};
use crate::dsp::reach::{next_u64, stream};
use crate::edition::{Edition, PAGE_MOST, SHEET_MOST};
use crate::tally::Tally;
use crate::{ours, sample, songs};

fn sheet_call(tally: &mut Tally, style: u8, seed: u64, asked: Asked, len: usize) {
    let what = || format!("the sheet of {seed:#x} in style {style}");
    let might = asked.unwrap_or_default();
    compare_call(tally, what, asked, might, len, |buf| {
        ours::sheet(style, seed, buf)
    });
}

fn page_call(tally: &mut Tally, style: u8, seed: u64, bar: u64, asked: Asked, len: usize) {
    let what = || format!("page {bar} of {seed:#x} in style {style}");
    let might = asked.unwrap_or_default();
    compare_call(tally, what, asked, might, len, |buf| {
        ours::bar_page(style, seed, bar, buf)
    });
}

/// A seed's song in one style, with its form.
struct Song {
    style: u8,
    seed: u64,
    take: Take,
    form: Form,
}

impl Song {
    fn both(seed: u64) -> [Song; 2] {
        [0, 1].map(|style| Song {
            style,
            seed,
            take: take(STYLES[usize::from(style)], seed),
            form: arrange(seed),
        })
    }

    fn bars(&self) -> u64 {
        self.form.bars() as u64
    }

    /// Its sheet, into a buffer whose length follows from the sheet's.
    fn compare_sheet(&self, tally: &mut Tally, len: impl Fn(usize) -> usize) {
        let Song { style, seed, .. } = *self;
        let wanted = sheet(Edition::Two, style, seed, &self.take, &self.form);
        let name = || format!("{seed:#x} in style {style}");
        tally.sheet.see(wanted.len(), name);
        sheet_call(tally, style, seed, Ok(&wanted), len(wanted.len()));
    }

    /// The page of a bar, into a buffer whose length follows from the page's.
    fn compare_page(&self, tally: &mut Tally, bar: u64, len: impl Fn(usize) -> usize) {
        let Song { style, seed, .. } = *self;
        let wanted = page(&self.take, &self.form, bar as usize);
        let name = || format!("bar {bar} of {seed:#x} in style {style}");
        tally.page.see(wanted.len(), name);
        page_call(tally, style, seed, bar, Ok(&wanted), len(wanted.len()));
    }

    /// Bars that it does not have: refusal 3, also before 2.
    fn compare_past(&self, tally: &mut Tally) {
        let end = self.bars();
        for (bar, len) in [
            (end, PAGE_MOST),
            (end, 0),
            (end + 1, PAGE_MOST),
            (u64::MAX, 0),
        ] {
            page_call(tally, self.style, self.seed, bar, Err(3), len);
        }
    }
}

/// Of one seed's songs the sheet and every page, and buffers that are just as long and a byte short: each call
/// composes anew, so these are tried with one page, which the seed decides.
pub fn compare_seed(tally: &mut Tally, seed: u64) {
    let drawn = next_u64(&mut stream(seed, 0));
    for song in Song::both(seed) {
        tally.see_roles(&song.take.roles);
        song.compare_sheet(tally, |_| SHEET_MOST);
        song.compare_sheet(tally, |n| n);
        song.compare_sheet(tally, |n| n - 1);
        for bar in 0..song.bars() {
            song.compare_page(tally, bar, |_| PAGE_MOST);
        }
        let bar = drawn % song.bars();
        song.compare_page(tally, bar, |n| n);
        song.compare_page(tally, bar, |n| n - 1);
        song.compare_past(tally);
    }
}

/// Every buffer that is too short, for one seed's sheets and for a page of each.
fn compare_short(tally: &mut Tally, seed: u64) {
    for song in Song::both(seed) {
        for short in 1..=SHEET_MOST {
            song.compare_sheet(tally, |n| n.saturating_sub(short));
        }
        for short in 1..=PAGE_MOST {
            song.compare_page(tally, 16, |n| n.saturating_sub(short));
        }
    }
}

/// Styles that are none: document 01's refusal 1, before 3 and 2.
fn compare_refused(tally: &mut Tally, style: u8, seed: u64) {
    for len in [SHEET_MOST, 0] {
        sheet_call(tally, style, seed, Err(1), len);
    }
    for (bar, len) in [(0, PAGE_MOST), (0, 0), (64, PAGE_MOST), (u64::MAX, 0)] {
        page_call(tally, style, seed, bar, Err(1), len);
    }
}

/// Inputs at the limits: no style, bars whose low bits are a bar of the song, short buffers, and the
/// seeds that show all that a form and a song can show.
pub fn compare_edges(tally: &mut Tally) {
    for seed in [0, 1, u64::MAX] {
        for style in 2..=255 {
            compare_refused(tally, style, seed);
        }
        for bar in (6..64).map(|bit| 1 << bit) {
            page_call(tally, 0, seed, bar, Err(3), PAGE_MOST);
        }
    }
    compare_short(tally, 1);
    for seed in sample::seeds().into_iter().chain(songs::seeds()) {
        compare_seed(tally, seed);
    }
}
