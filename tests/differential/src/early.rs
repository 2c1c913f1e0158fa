//! Early hits, by document 02: which ones they are, and the song bars that show what becomes of them.

use crate::compose::Form;
use crate::compose::reach::form::plays_at;
use crate::compose::reach::{Hit, Take};
use std::collections::BTreeMap;

const DRUMS: u64 = 4;

/// The line of loop bar `bar`, as the Rust lays it.
fn line(take: &Take, bar: u64) -> f32 {
    bar as f32 * take.score.bar_s()
}

/// Whether a hit drawn for loop bar `bar` is early. One on the line is not.
pub fn is_early(take: &Take, hit: &Hit, bar: u64) -> bool {
    hit.at < line(take, bar)
}

/// The loop bar that song bar `bar` shows.
pub fn shows(form: &Form, bar: usize) -> u64 {
    ((bar + form.lead_in()) % 8) as u64
}

/// Whether song bar `bar` plays drums. The bar after the last one plays none.
pub fn drums_at(form: &Form, bar: usize) -> bool {
    plays_at(form, bar) & DRUMS != 0
}

/// Whether a hit of loop bar `bar` is on the Rust's line and before the exact one, 240 × bar / tempo. As an f64 the
/// product of time and tempo is exact.
fn is_on_line(take: &Take, hit: &Hit, bar: u64) -> bool {
    let scaled = f64::from(hit.at) * f64::from(take.score.bpm);
    hit.at == line(take, bar) && scaled < (240 * bar) as f64
}

/// What song bar `bar`, or the bar after the last one, shows of hits before its line and on it. Nothing where drums
/// come back after a silent bar: they do so at loop bar 0 alone, whose line is zero, and no hit is before that.
fn shown(take: &Take, form: &Form, bar: usize) -> Vec<&'static str> {
    let of = shows(form, bar);
    let hits: Vec<&Hit> = (take.score.drums.iter().zip(&take.bars.hits))
        .filter(|(_, drawn_for)| **drawn_for == of)
        .map(|(hit, _)| hit)
        .collect();
    let early: Vec<bool> = hits.iter().map(|hit| is_early(take, hit, of)).collect();
    let any = early.contains(&true);
    let between = early.windows(3).any(|three| three == [false, true, false]);
    let on_line = hits.iter().any(|hit| is_on_line(take, hit, of));
    let (before, here) = (bar > 0 && drums_at(form, bar - 1), drums_at(form, bar));
    let (both, ended) = (before && here, bar == form.bars());
    let silent = before && !here && !ended;
    let all = [
        (any && both, "moves an early hit"),
        (between && both, "moves an early hit from between two"),
        (any && here && bar == 0, "keeps an early hit on page 0"),
        (any && silent, "has an early hit in a silent bar"),
        (any && before && ended, "ends before an early hit"),
        (on_line && both, "keeps a hit on its bar line"),
    ];
    let shown = all.into_iter().filter(|(is, _)| *is);
    shown.map(|(_, what)| what).collect()
}

/// All that the song shows of such hits, each thing with the first bar that shows it.
pub fn firsts(take: &Take, form: &Form) -> BTreeMap<&'static str, usize> {
    let mut all = BTreeMap::new();
    for bar in 0..=form.bars() {
        for what in shown(take, form, bar) {
            all.entry(what).or_insert(bar);
        }
    }
    all
}
