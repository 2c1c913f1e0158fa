//! The exported functions of the crates `probe_c`, `roundtrip` and `seqochanu` with their own numbers for answers,
//! behind safe wrappers. A slice passes as a pointer and a length; no function asks more of its caller.

use crate::compose::reach::form::Parts;
use crate::edition::Edition;
use crate::lessons::{Lesson, Wish};
use crate::seqochanu::raw::{
    seqochanu_bar_page, seqochanu_hall_list, seqochanu_lesson, seqochanu_reread, seqochanu_sheet,
    seqochanu_to_edition_1, seqochanu_to_edition_2,
};

mod raw {
    unsafe extern "C" {
        pub fn probe_words(seed: u64, counter: u64, out: *mut u64, len: usize) -> u64;
        pub fn probe_units(seed: u64, counter: u64, out: *mut u64, len: usize) -> u64;
        pub fn probe_picks(seed: u64, counter: u64, n: u8, out: *mut u64, len: usize) -> u64;
        pub fn probe_chances(seed: u64, counter: u64, p: f32, out: *mut u64, len: usize) -> u64;
        pub fn probe_coins(seed: u64, counter: u64, out: *mut u64, len: usize) -> u64;
        pub fn probe_truncated(x: f32) -> u64;
        pub fn probe_stage_seed(stage: u8, seed: u64, out: *mut u64, len: usize) -> i64;
        pub fn probe_form(seed: u64, k: u8) -> u64;
        pub fn probe_beatless(seed: u64, k: u8) -> u64;
        pub fn probe_form_counter(seed: u64) -> u64;
        pub fn probe_made_plays(
            seed: u64,
            intro: u8,
            phrases: u8,
            outro: u8,
            bars: u8,
            bar: u64,
        ) -> i64;
        pub fn probe_made_beatless(
            seed: u64,
            intro: u8,
            phrases: u8,
            outro: u8,
            dip: bool,
            bars: u8,
            k: u8,
        ) -> u64;
        pub fn probe_spans(seeds: *const u64, len: usize) -> u8;
        pub fn probe_score(style: u8, seed: u64, out: *mut u64, len: usize);
        pub fn probe_unbeaten(style: u8, seed: u64, out: *mut u64, len: usize);
        pub fn probe_kicks(style: u8, seed: u64, out: *mut u64, len: usize);
        pub fn probe_made_kicks(words: *const u64, count: usize, out: *mut u64, len: usize);
        pub fn probe_counters(style: u8, seed: u64, out: *mut u64, len: usize) -> i64;
        pub fn roundtrip_sheet(sheet: *const u8, sheet_len: usize, buf: *mut u8, len: usize) -> u8;
        pub fn roundtrip_read(sheet: *const u8, sheet_len: usize) -> u8;
    }
}

pub fn words(seed: u64, counter: u64, out: &mut [u64]) -> u64 {
    unsafe { raw::probe_words(seed, counter, out.as_mut_ptr(), out.len()) }
}

pub fn units(seed: u64, counter: u64, out: &mut [u64]) -> u64 {
    unsafe { raw::probe_units(seed, counter, out.as_mut_ptr(), out.len()) }
}

pub fn picks(seed: u64, counter: u64, n: u8, out: &mut [u64]) -> u64 {
    unsafe { raw::probe_picks(seed, counter, n, out.as_mut_ptr(), out.len()) }
}

pub fn chances(seed: u64, counter: u64, p: f32, out: &mut [u64]) -> u64 {
    unsafe { raw::probe_chances(seed, counter, p, out.as_mut_ptr(), out.len()) }
}

pub fn coins(seed: u64, counter: u64, out: &mut [u64]) -> u64 {
    unsafe { raw::probe_coins(seed, counter, out.as_mut_ptr(), out.len()) }
}

pub fn stage_seed(stage: u8, seed: u64, out: &mut [u64]) -> i64 {
    unsafe { raw::probe_stage_seed(stage, seed, out.as_mut_ptr(), out.len()) }
}

pub fn truncated(x: f32) -> u64 {
    unsafe { raw::probe_truncated(x) }
}

pub fn form(seed: u64, k: u8) -> u64 {
    unsafe { raw::probe_form(seed, k) }
}

pub fn beatless(seed: u64, k: u8) -> u64 {
    unsafe { raw::probe_beatless(seed, k) }
}

pub fn form_counter(seed: u64) -> u64 {
    unsafe { raw::probe_form_counter(seed) }
}

pub fn made_plays(seed: u64, parts: Parts, bars: u8, bar: u64) -> i64 {
    let Parts {
        intro,
        phrases,
        outro,
        ..
    } = parts;
    unsafe { raw::probe_made_plays(seed, intro, phrases, outro, bars, bar) }
}

pub fn made_beatless(seed: u64, parts: Parts, bars: u8, k: u8) -> u64 {
    let Parts {
        intro,
        phrases,
        outro,
        dip,
    } = parts;
    unsafe { raw::probe_made_beatless(seed, intro, phrases, outro, dip, bars, k) }
}

pub fn spans(seeds: &[u64]) -> u8 {
    unsafe { raw::probe_spans(seeds.as_ptr(), seeds.len()) }
}

pub fn score(style: u8, seed: u64, out: &mut [u64]) {
    unsafe { raw::probe_score(style, seed, out.as_mut_ptr(), out.len()) }
}

pub fn unbeaten(style: u8, seed: u64, out: &mut [u64]) {
    unsafe { raw::probe_unbeaten(style, seed, out.as_mut_ptr(), out.len()) }
}

pub fn kicks(style: u8, seed: u64, out: &mut [u64]) {
    unsafe { raw::probe_kicks(style, seed, out.as_mut_ptr(), out.len()) }
}

pub fn made_kicks(words: &[u64], out: &mut [u64]) {
    let (made, count) = (words.as_ptr(), words.len());
    unsafe { raw::probe_made_kicks(made, count, out.as_mut_ptr(), out.len()) }
}

pub fn counters(style: u8, seed: u64, out: &mut [u64]) -> i64 {
    unsafe { raw::probe_counters(style, seed, out.as_mut_ptr(), out.len()) }
}

pub fn sheet(style: u8, seed: u64, buf: &mut [u8]) -> i64 {
    unsafe { seqochanu_sheet(style, seed, buf.as_mut_ptr(), buf.len()) }
}

pub fn bar_page(style: u8, seed: u64, bar: u64, buf: &mut [u8]) -> i64 {
    unsafe { seqochanu_bar_page(style, seed, bar, buf.as_mut_ptr(), buf.len()) }
}

pub fn hall_list(hall: u64, count: u64, buf: &mut [u8]) -> i64 {
    unsafe { seqochanu_hall_list(hall, count, buf.as_mut_ptr(), buf.len()) }
}

pub fn reread(sheet: &[u8], buf: &mut [u8]) -> i64 {
    let (sheet, sheet_len) = (sheet.as_ptr(), sheet.len());
    unsafe { seqochanu_reread(sheet, sheet_len, buf.as_mut_ptr(), buf.len()) }
}

pub fn to_edition(sheet: &[u8], wanted: Edition, buf: &mut [u8]) -> i64 {
    let call = match wanted {
        Edition::One => seqochanu_to_edition_1,
        Edition::Two => seqochanu_to_edition_2,
    };
    let (sheet, sheet_len) = (sheet.as_ptr(), sheet.len());
    unsafe { call(sheet, sheet_len, buf.as_mut_ptr(), buf.len()) }
}

pub fn lesson(asked: &Lesson, seed: &mut u64) -> i64 {
    let Lesson {
        style,
        start,
        count,
        wish,
    } = *asked;
    let Wish { key, tempo, voice } = wish;
    unsafe { seqochanu_lesson(style, start, count, key, tempo, voice, seed) }
}

/// Minus the number of the refusal, or the sheet's own length: the call says of what it wrote only that it did.
pub fn roundtrip(sheet: &[u8], buf: &mut [u8]) -> i64 {
    let (sheet, sheet_len) = (sheet.as_ptr(), sheet.len());
    match unsafe { raw::roundtrip_sheet(sheet, sheet_len, buf.as_mut_ptr(), buf.len()) } {
        0 => sheet_len as i64,
        number => -i64::from(number),
    }
}

/// The number of the refusal, 0 for none, of a sheet that is read into a song and not written.
pub fn read(sheet: &[u8]) -> u8 {
    unsafe { raw::roundtrip_read(sheet.as_ptr(), sheet.len()) }
}
