//! What each page shows, worked out from the sheet alone: the notes of the loop bar that it shows, with their roles;
//! the hits of its own bar that are not before their bar line, in song bar 0 all of them, then those of the next bar
//! that are.

use super::tests::{fields, songs};
use super::{pages, sheet_vec};

// The bits of the layers in a bar's plays; the lead plays with the keys.
const KEYS: u8 = 2;
const DRUMS: u8 = 4;
const BASS: u8 = 8;

// The bytes of an event.
const NOTE: usize = 15;
const HIT: usize = 10;

/// The bodies of a sheet's fields, by their tags.
struct Told<'a>(Vec<&'a [u8]>);

fn float(bytes: &[u8]) -> f32 {
    f32::from_be_bytes(bytes.try_into().expect("four bytes"))
}

impl<'a> Told<'a> {
    fn by(sheet: &'a [u8]) -> Self {
        Self(fields(sheet).into_iter().map(|(_, body)| body).collect())
    }

    fn is_early(&self, hit: &[u8]) -> bool {
        let beat = 60.0 / float(self.0[2]);
        float(&hit[2..6]) < f32::from(hit[0]) * (beat * 4.0)
    }

    /// The events of a lane, so wide each, that are `wanted` of those that a song bar shows. A bar where the layer is
    /// silent, or past the song, has none.
    fn of(
        &self,
        (tag, layer, width): (u8, u8, usize),
        bar: usize,
        wanted: impl Fn(&[u8]) -> bool,
    ) -> Vec<u8> {
        let on = self.0[10].get(bar).is_some_and(|plays| plays & layer != 0);
        let lead_in = (8 - usize::from(self.0[9][1]) % 8) % 8;
        let shows = (bar + lead_in) % 8;
        let events = self.0[usize::from(tag)].chunks(width);
        events
            .filter(|event| on && usize::from(event[0]) == shows && wanted(event))
            .flatten()
            .copied()
            .collect()
    }
}

#[test]
fn a_page_has_the_notes_of_its_loop_bar() {
    let lanes = [(5, KEYS, NOTE), (6, KEYS, NOTE), (8, BASS, NOTE)];
    for (style, seed) in songs() {
        let sheet = sheet_vec(style, seed);
        let told = Told::by(&sheet);
        for (bar, page) in pages(style, seed).enumerate() {
            let shown = fields(&page);
            for lane in lanes {
                let notes = told.of(lane, bar, |_| true);
                assert!(shown.contains(&(lane.0, &notes)), "bar {bar}");
            }
        }
    }
}

#[test]
fn a_page_has_the_hits_that_are_heard_in_its_bar() {
    let hits = (7, DRUMS, HIT);
    let mut moved = 0;
    for (style, seed) in songs() {
        let sheet = sheet_vec(style, seed);
        let told = Told::by(&sheet);
        for (bar, page) in pages(style, seed).enumerate() {
            let own = told.of(hits, bar, |hit| bar == 0 || !told.is_early(hit));
            let next = told.of(hits, bar + 1, |hit| told.is_early(hit));
            assert_eq!(fields(&page)[4], (7, &[&own[..], &next].concat()[..]));
            moved += next.len() / HIT;
        }
    }
    assert!(moved > 0, "some hit stands on the page before");
}
