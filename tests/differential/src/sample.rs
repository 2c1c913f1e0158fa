//! The seeds whose forms are recorded: among them is all that a form can show, each thing at least
//! twice.

use crate::compose::arrange;
use crate::compose::reach::form::{dip_drawn, dips, intro_code, outro_code, phrases, plays_at};
use std::collections::BTreeMap;

/// How many things a form can show: 15 intros, 12 outros, 3 numbers of phrases, 7 thin phrases, 6 cuts,
/// the late bass drop, the dip, and the dip that is dropped.
const THINGS: usize = 46;

/// What the form of this seed shows.
fn shown(seed: u64) -> Vec<String> {
    let form = arrange(seed);
    let at = |bar: usize| plays_at(&form, bar);
    let body = |phrase: usize, bar: usize| at(form.intro() + 8 * phrase + bar);
    let (intro, outro) = (form.intro(), form.outro());
    let (phrases, thin) = (phrases(&form), phrases(&form) / 2);
    let last = at(form.bars() - outro);
    let mut all = vec![
        format!("intro {} of {intro}: {}", intro_code(&form), at(0)),
        format!("outro {} of {outro}: {last}", outro_code(&form)),
        format!("{phrases} phrases"),
        format!("thin phrase: {} then {}", body(thin, 0), body(thin, 4)),
    ];
    for p in (1..phrases - 1).filter(|&p| p != thin) {
        let bars = (0..8).filter(|&i| body(p, i) & 4 == 0).count();
        // a late bass drop would hide whether the cut is low
        let late = body(p, 4) & 8 == 0;
        if bars > 0 && !late {
            all.push(format!("cut of {bars}: {}", body(p, 7)));
        }
    }
    if body(thin + 1, 4) & 8 == 0 {
        all.push("late bass drop".into());
    }
    if dips(&form) {
        all.push("dip".into());
    } else if dip_drawn(seed) {
        all.push("dropped dip".into());
    }
    all
}

pub fn seeds() -> Vec<u64> {
    let mut times = BTreeMap::new();
    let mut kept = Vec::new();
    for seed in (0..10_000).map(crate::seed_of) {
        let all = shown(seed);
        let wanted = |thing: &String| times.get(thing).is_none_or(|&n| n < 2);
        if all.iter().any(wanted) {
            kept.push(seed);
            for thing in all {
                *times.entry(thing).or_insert(0) += 1;
            }
        }
    }
    assert_eq!(times.len(), THINGS, "each thing is shown");
    assert!(times.values().all(|&n| n >= 2), "each is shown twice");
    kept
}
