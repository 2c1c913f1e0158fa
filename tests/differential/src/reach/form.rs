//! The private parts of compose/form.rs that the driver asks for.

use super::{DIP_P, Edge, End, Form, Layer, Outro, Plays, Stage, bars, chance};
use crate::dsp::reach::{seed_of, stream};

fn end_code(end: End) -> u8 {
    match end {
        End::Cold => 0,
        End::Plain(_) => 1,
        End::Edged(_, Edge::Fade) => 2,
        End::Edged(_, Edge::Filter) => 3,
    }
}

/// The intro's code on the sheet.
pub(crate) fn intro_code(form: &Form) -> u8 {
    end_code(form.intro)
}

/// The outro's code on the sheet.
pub(crate) fn outro_code(form: &Form) -> u8 {
    match form.outro {
        Outro::Ends(end) => end_code(end),
        Outro::RingOut => 4,
    }
}

pub(crate) fn phrases(form: &Form) -> usize {
    form.phrases
}

pub(crate) fn dips(form: &Form) -> bool {
    form.dip
}

/// The layers of a bar: 1 the pad, 2 the keys, 4 the drums, 8 the bass. None past the song's end.
pub(crate) fn plays_at(form: &Form, bar: usize) -> u64 {
    let Some(plays) = form.plays.get(bar) else {
        return 0;
    };
    let layer = |l: Layer| u64::from(plays.has(l));
    layer(Layer::Pad) + 2 * layer(Layer::Keys) + 4 * layer(Layer::Drums) + 8 * layer(Layer::Bass)
}

/// What a form is made of, its ends by number.
#[derive(Clone, Copy, Debug)]
pub(crate) struct Parts {
    pub(crate) intro: u8,
    pub(crate) phrases: u8,
    pub(crate) outro: u8,
    pub(crate) dip: bool,
}

/// The end by its number: from 1 on plain, fading and filtering, 4 bars and then 8 of each.
fn end(n: u8) -> End {
    let length = bars(if n % 2 == 1 { 4 } else { 8 });
    match n {
        1 | 2 => End::Plain(length),
        3 | 4 => End::Edged(length, Edge::Fade),
        5 | 6 => End::Edged(length, Edge::Filter),
        _ => End::Cold,
    }
}

/// The outro by its number: those of `end`, and 7 rings out.
fn outro(n: u8) -> Outro {
    match n {
        7 => Outro::RingOut,
        _ => Outro::Ends(end(n)),
    }
}

/// The bars that these parts have.
pub(crate) fn bars_of(parts: Parts) -> usize {
    end(parts.intro).bars() + 8 * usize::from(parts.phrases) + outro(parts.outro).bars()
}

/// A form of these parts with the plays of `from`, and silence where that has no bar.
pub(crate) fn made(from: &Form, parts: Parts) -> Form {
    let mut plays = from.plays.clone();
    plays.resize(bars_of(parts), Plays([false; 4]));
    let (intro, outro) = (end(parts.intro), outro(parts.outro));
    Form::new(intro, parts.phrases.into(), outro, parts.dip, plays)
}

/// Whether the dip is drawn, by draw 27. A form does not show one that was dropped.
pub(crate) fn dip_drawn(seed: u64) -> bool {
    let theirs = seed_of(&Stage::Form.stream(seed));
    chance(&mut stream(theirs, 26), DIP_P)
}
