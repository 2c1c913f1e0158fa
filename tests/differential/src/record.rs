//! Writes a sample of the Rust's answers, which crate `replay` runs with no Rust at hand. A line is a
//! letter and three words of 16 hexadecimal digits: what is asked, two arguments, the answer.

use crate::bytes::{front, page, sheet};
use crate::compose::reach::form::plays_at;
use crate::compose::reach::{STAGES, STYLES, Take, coin, kicks, pick, take};
use crate::compose::{Form, arrange};
use crate::convert::Song;
use crate::draws::stream_with;
use crate::dsp::reach::{next_u64, seed_of, stream};
use crate::edition::{EDITIONS, Edition, PAGE_MOST, SHEET_MOST};
use crate::halls::{HALLS, LIST_MOST, list};
use crate::lessons::{self, Lesson, Wish};
use crate::reread::judge::judge;
use crate::scores::unbeaten;
use crate::words::{kick_words, words_of};
use crate::{early, forms, sample, songs};
use std::collections::{BTreeMap, BTreeSet};

/// What is asked, its two arguments, the answer.
type Line = (char, u64, u64, u64);

/// S: the seed of stage b's stream for the song seed a. W, U: draw b of the stream a, as a word and as
/// a unit's bits. D: the seed of the stream whose draw b is a. C: the first coin of the stream a.
fn stage_lines(lines: &mut Vec<Line>, seed: u64) {
    for (id, stage) in (1u64..).zip(STAGES) {
        let theirs = seed_of(&stage.stream(seed));
        let at = |n: u64| stream(theirs, n - 1);
        lines.push(('S', seed, id, theirs));
        for n in [1, 2, 300] {
            let word = next_u64(&mut at(n));
            lines.push(('W', theirs, n, word));
            lines.push(('U', theirs, n, at(n).unit().to_bits().into()));
            lines.push(('D', word, n, theirs));
        }
        lines.push(('C', theirs, 0, coin(&mut at(1)).into()));
    }
}

/// P: the first pick of b from the stream a. Document 01's cases 2 and 3, then for each n the end of a
/// part in the middle.
fn pick_lines(lines: &mut Vec<Line>) {
    let middle = |n: u64| (((n / 2) << 24) / n.max(1), n);
    let cases = [(13_981_013, 12), (16_777_215, 12)];
    for (k, n) in cases.into_iter().chain((0..=255).map(middle)) {
        let seed = stream_with(k);
        let answer = pick(&mut stream(seed, 0), n as usize) as u64;
        lines.push(('P', seed, n, answer));
    }
}

/// F, B: word b of the form of the song seed a, as drawn and beatless. B's word 5, its refusal, is 0:
/// the Rust refuses nothing here.
fn form_lines(lines: &mut Vec<Line>, seed: u64) {
    let form = arrange(seed);
    for (k, word) in (0..).zip(forms::words_of(&form)) {
        lines.push(('F', seed, k, word));
    }
    for (k, word) in (0..).zip(forms::words_of(&form.beatless()).into_iter().chain([0])) {
        lines.push(('B', seed, k, word));
    }
}

/// FNV-1a over whole words, as the Rust's own tests fold what they record.
fn fold(words: &[u64]) -> u64 {
    words.iter().fold(0xcbf2_9ce4_8422_2325, |h, w| {
        (h ^ w).wrapping_mul(0x0000_0100_0000_01b3)
    })
}

/// H, Z: word b of the song of the song seed a in hiphop and in sleep, the first 15. h, z: a fold of
/// all words: b is 0 for the song, 1 for the song without its drums, 2 for its kicks.
fn song_lines(lines: &mut Vec<Line>, seed: u64) {
    for (style, (word, folded)) in (0..).zip([('H', 'h'), ('Z', 'z')]) {
        let take = take(STYLES[usize::from(style)], seed);
        let words = words_of(style, &take);
        for (k, &w) in (0..15).zip(&words) {
            lines.push((word, seed, k, w));
        }
        let kicks = kick_words(&kicks(&take.score.drums));
        let rest = words_of(style, &unbeaten(take));
        for (b, words) in (0..).zip([words, rest, kicks]) {
            lines.push((folded, seed, b, fold(&words)));
        }
    }
}

/// The bars whose pages are recorded: the first and the last of intro, body and outro, the body's first
/// eight, which show every loop bar, the first with each set of layers, and for each thing of early hits
/// the first that shows it, with the bar before, whose page gains such a hit or does not.
fn chosen(take: &Take, form: &Form) -> BTreeSet<usize> {
    let parts = form.parts().into_iter().filter(|part| !part.is_empty());
    let ends = parts.flat_map(|part| [part.start, part.end - 1]);
    let phrase = form.intro()..form.intro() + 8;
    let layers: BTreeMap<u64, usize> = (0..form.bars())
        .rev()
        .map(|bar| (plays_at(form, bar), bar))
        .collect();
    let early = early::firsts(take, form).into_values();
    // one of them is shown by the bar after the last, which has no page
    let gained = early.flat_map(|bar| bar.saturating_sub(1)..=bar.min(form.bars() - 1));
    let firsts = layers.into_values().chain(gained);
    ends.chain(phrase).chain(firsts).collect()
}

/// A fold of the length of what is written, and of the buffer of `most` zeros that it is written to.
fn byte_fold(bytes: &[u8], most: usize) -> u64 {
    let mut words = vec![bytes.len() as u64];
    words.extend(bytes.iter().map(|&byte| u64::from(byte)));
    words.resize(1 + most, 0);
    fold(&words)
}

/// M, N: a fold of what is written for the song seed a in hiphop and in sleep: b is 0 for the sheet, n + 1
/// for the page of bar n. The bar after the last has document 01's refusal 3.
fn page_lines(lines: &mut Vec<Line>, seed: u64) {
    let form = arrange(seed);
    for (style, what) in (0..).zip(['M', 'N']) {
        let take = take(STYLES[usize::from(style)], seed);
        let sheet = sheet(Edition::Two, style, seed, &take, &form);
        lines.push((what, seed, 0, byte_fold(&sheet, SHEET_MOST)));
        for bar in chosen(&take, &form) {
            let page = page(&take, &form, bar);
            lines.push((what, seed, bar as u64 + 1, byte_fold(&page, PAGE_MOST)));
        }
        lines.push((what, seed, form.bars() as u64 + 1, 3));
    }
}

/// L: a fold of the list of b seeds of hall a, or document 02's refusal.
fn hall_lines(lines: &mut Vec<Line>, hall: u64) {
    for count in [1, 2, 3, 100, 4096, 0, 4097, u64::MAX] {
        let answer = match list(hall, count) {
            Ok(bytes) => byte_fold(&bytes, LIST_MOST),
            Err(number) => number.into(),
        };
        lines.push(('L', hall, count, answer));
    }
}

/// How many bytes are kept of a sheet that is not cut off.
const WHOLE: usize = 65535;

/// How a sheet is spoiled: a byte put at a place, and how many bytes are kept.
type Spoil = (Option<(usize, u8)>, usize);

/// That in one word, with the sheet's style and edition.
fn spoiled(edition: Edition, style: u8, (place, kept): Spoil) -> u64 {
    let first = u64::from(edition == Edition::One);
    let (place, byte) = place.map_or((0, 0), |(place, byte)| (place as u64 + 1, byte));
    let cut = (WHOLE - kept) as u64;
    u64::from(style) | first << 1 | u64::from(byte) << 8 | place << 16 | cut << 32
}

/// The places at which a byte of a sheet is changed: those of every head, of the first two bytes and of the last of
/// each body.
fn places(sheet: &[u8]) -> BTreeSet<usize> {
    let (mut places, mut at) = (BTreeSet::new(), 0);
    while at < sheet.len() {
        let size = usize::from(u16::from_be_bytes([sheet[at + 1], sheet[at + 2]]));
        let end = at + 3 + size;
        places.extend((at..end.min(at + 5)).chain([end - 1]));
        at = end;
    }
    places
}

/// A line of this letter for a song's sheet that is spoiled: a fold of what is written of it, or document 02's refusal.
fn spoiled_line(
    what: char,
    (song, edition): (&Song, Edition),
    spoil: Spoil,
    written: impl Fn(&[u8]) -> Result<Vec<u8>, i64>,
) -> Line {
    let (mut bytes, (place, kept)) = (song.sheet(edition).to_vec(), spoil);
    if let Some((place, byte)) = place {
        bytes[place] = byte;
    }
    bytes.truncate(kept);
    let answer = match written(&bytes) {
        Ok(bytes) => byte_fold(&bytes, SHEET_MOST),
        Err(number) => number as u64,
    };
    let b = spoiled(edition, song.style, spoil);
    (what, song.seed, b, answer)
}

/// R: a fold of what is read of the sheet of the song seed a, spoiled as b tells, and written again, or document 02's
/// refusal: the whole sheet; the sheet cut off; one byte of it changed, at each of the places; and a bad style in a
/// sheet that is cut off.
fn reread_lines(lines: &mut Vec<Line>, edition: Edition, seed: u64) {
    for style in 0..2 {
        let song = Song::of(style, seed);
        let sheet = song.sheet(edition);
        let mut ask = |place: Option<(usize, u8)>, kept: usize| {
            let read = |bytes: &[u8]| judge(bytes).map(|()| bytes.to_vec());
            lines.push(spoiled_line('R', (&song, edition), (place, kept), read));
        };
        ask(None, WHOLE);
        for kept in [0, 1, 4, 12, sheet.len() - 1] {
            ask(None, kept);
        }
        for place in places(sheet) {
            for byte in [0, 1, 6, 7, 0x7f, 0xff] {
                ask(Some((place, byte)), WHOLE);
            }
        }
        let style_at = front(edition).len() + 3;
        ask(Some((style_at, 2)), sheet.len() - 1);
    }
}

/// The sheet left whole; cut off by a byte; and one byte of it changed, at each of the places: its lowest bit, and to
/// 255.
fn whole_and_spoiled(sheet: &[u8]) -> Vec<Spoil> {
    let mut all = vec![(None, WHOLE), (None, sheet.len() - 1)];
    for place in places(sheet) {
        let others = BTreeSet::from([sheet[place] ^ 1, 0xff]).into_iter();
        let others = others.filter(|&byte| byte != sheet[place]);
        all.extend(others.map(|byte| (Some((place, byte)), WHOLE)));
    }
    all
}

/// O, T: a fold of what the sheet of the song seed a, spoiled as b tells, becomes in edition 1 and in edition 2, or
/// document 02's refusal: each sheet of the seed, spoiled in each of these ways.
fn edition_lines(lines: &mut Vec<Line>, seed: u64, spoils: impl Fn(&[u8]) -> Vec<Spoil>) {
    let wanted = [('O', Edition::One), ('T', Edition::Two)];
    for style in 0..2 {
        let song = Song::of(style, seed);
        for edition in EDITIONS {
            let asked = spoils(song.sheet(edition)).into_iter();
            lines.extend(asked.flat_map(|spoil| {
                wanted.map(|(what, wanted)| {
                    let written = |bytes: &[u8]| song.converted(bytes, wanted);
                    spoiled_line(what, (&song, edition), spoil, written)
                })
            }));
        }
    }
}

/// A lesson in one word, but for its start.
fn packed(lesson: &Lesson) -> u64 {
    let Wish { key, tempo, voice } = lesson.wish;
    let count = u32::try_from(lesson.count).expect("a count of 32 bits");
    u64::from(count) << 32 | u64::from(u32::from_be_bytes([lesson.style, key, tempo, voice]))
}

/// K: the number of document 02's refusal of the lesson that starts at a and goes by b, 0 for none. k: the seed that
/// is given, where just one fits, so that document 02 settles which.
fn lesson_lines(lines: &mut Vec<Line>) {
    for (lesson, judged) in lessons::judged() {
        let (a, b) = (lesson.start, packed(&lesson));
        let number = judged.as_ref().err().map_or(0, |&number| number as u64);
        lines.push(('K', a, b, number));
        if let Ok([seed]) = judged.as_deref() {
            lines.push(('k', a, b, *seed));
        }
    }
}

fn write_lines(folder: &str, name: &str, lines: &[Line]) {
    let text: String = (lines.iter())
        .map(|(what, a, b, answer)| format!("{what} {a:016x} {b:016x} {answer:016x}\n"))
        .collect();
    std::fs::write(format!("{folder}/{name}"), text).expect("the folder can be written to");
}

pub fn write(folder: &str) {
    let mut draws = Vec::new();
    for i in 0..16 {
        stage_lines(&mut draws, crate::seed_of(i));
    }
    pick_lines(&mut draws);
    write_lines(folder, "draws", &draws);
    let mut forms = Vec::new();
    for seed in sample::seeds() {
        form_lines(&mut forms, seed);
    }
    write_lines(folder, "forms", &forms);
    let (mut songs, mut pages) = (Vec::new(), Vec::new());
    for seed in songs::seeds() {
        song_lines(&mut songs, seed);
        page_lines(&mut pages, seed);
    }
    write_lines(folder, "songs", &songs);
    write_lines(folder, "pages", &pages);
    let mut halls = Vec::new();
    for hall in HALLS {
        hall_lines(&mut halls, hall);
    }
    write_lines(folder, "halls", &halls);
    let mut sheets = Vec::new();
    for seed in [0, 389_849, u64::MAX] {
        reread_lines(&mut sheets, Edition::Two, seed);
    }
    reread_lines(&mut sheets, Edition::One, 0);
    write_lines(folder, "sheets", &sheets);
    let mut editions = Vec::new();
    edition_lines(&mut editions, 0, whole_and_spoiled);
    for seed in [389_849, u64::MAX] {
        edition_lines(&mut editions, seed, |_| vec![(None, WHOLE)]);
    }
    write_lines(folder, "editions", &editions);
    let mut lessons = Vec::new();
    lesson_lines(&mut lessons);
    write_lines(folder, "lessons", &lessons);
}
