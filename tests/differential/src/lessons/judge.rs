//! What document 02 answers to a wish for a lesson, over the songs that the Rust composes.

use crate::compose::reach::{STYLES, take, voice_code};
use crate::dsp::reach::{next_u64, stream};
use std::fmt;
use std::ops::Range;

/// The most seeds of a span, by document 02.
pub const COUNT_MOST: u64 = 65_536;

/// A wish of a teacher's, by the codes of document 02.
#[derive(Clone, Copy, PartialEq)]
pub struct Wish {
    pub key: u8,
    pub tempo: u8,
    pub voice: u8,
}

/// The codes for any key, any tempo and any lead voice.
pub const ANY: Wish = Wish {
    key: 12,
    tempo: 0,
    voice: 255,
};

impl Wish {
    /// The wish with one of the three put to what the other has: the key, the tempo, the voice.
    pub fn mixed(self, other: Wish) -> [Wish; 3] {
        let Wish { key, tempo, voice } = other;
        [
            Wish { key, ..self },
            Wish { tempo, ..self },
            Wish { voice, ..self },
        ]
    }
}

/// What a wish asks about a song: the first entry of its scale, its tempo, and its lead voice's number on the sheet.
#[derive(Clone, Copy, Debug, PartialEq)]
pub struct Traits {
    pub key: u8,
    pub bpm: f32,
    pub voice: u8,
}

impl Traits {
    /// Those of the song that the Rust composes.
    pub fn of(style: u8, seed: u64) -> Traits {
        let take = take(STYLES[usize::from(style)], seed);
        Traits {
            key: take.scale[0],
            bpm: take.score.bpm,
            voice: voice_code(&take.score) as u8,
        }
    }

    /// Whether the song has all three. No wish is for a tempo that is not a whole number.
    pub fn has(&self, wish: Wish) -> bool {
        (wish.key == ANY.key || wish.key == self.key)
            && (wish.tempo == ANY.tempo || f32::from(wish.tempo) == self.bpm)
            && (wish.voice == ANY.voice || wish.voice == self.voice)
    }

    /// The wish for just what this song has.
    pub fn wish(&self) -> Wish {
        let wish = Wish {
            key: self.key,
            tempo: self.bpm as u8,
            voice: self.voice,
        };
        assert!(self.has(wish), "{self:?} can be wished for");
        wish
    }
}

/// What is asked of the call.
#[derive(Clone, Copy, PartialEq)]
pub struct Lesson {
    pub style: u8,
    pub start: u64,
    pub count: u64,
    pub wish: Wish,
}

/// The seeds of the span that fit, one at least, from the lowest on; or the number of document 02's refusal.
pub type Judged = Result<Vec<u64>, i64>;

impl Lesson {
    /// The refusals for which no song is asked, in their order.
    pub fn sound(&self) -> Result<(), i64> {
        let Wish { key, voice, .. } = self.wish;
        let end = u128::from(self.start) + u128::from(self.count);
        if self.style > 1 {
            return Err(1);
        }
        if !(1..=COUNT_MOST).contains(&self.count) || end > 1 << 64 {
            return Err(10);
        }
        if key > 12 || (4..=254).contains(&voice) {
            return Err(11);
        }
        Ok(())
    }

    /// Whether the seed is one of the span and fits, its song composed for this.
    pub fn takes(&self, seed: u64) -> bool {
        let (seed, start) = (u128::from(seed), u128::from(self.start));
        let span = start..start + u128::from(self.count);
        span.contains(&seed) && Traits::of(self.style, seed as u64).has(self.wish)
    }

    /// A number that is no seed of the span; it goes by all that is asked.
    pub fn far(&self) -> u64 {
        let Wish { key, tempo, voice } = self.wish;
        let told = [self.style, key, tempo, voice, 0, 0, 0, 0];
        let draws = &mut stream(self.start ^ self.count ^ u64::from_be_bytes(told), 0);
        loop {
            let drawn = next_u64(draws);
            if drawn.wrapping_sub(self.start) >= self.count.min(COUNT_MOST) {
                return drawn;
            }
        }
    }
}

impl fmt::Display for Lesson {
    fn fmt(&self, f: &mut fmt::Formatter<'_>) -> fmt::Result {
        let Lesson {
            style,
            start,
            count,
            wish,
        } = self;
        let Wish { key, tempo, voice } = wish;
        write!(
            f,
            "a lesson in style {style}, {count} seeds from {start:#x}, key {key}, tempo {tempo}, voice {voice}"
        )
    }
}

/// The songs of seeds that follow each other, in one style, by what a wish asks about them.
pub struct Songs {
    style: u8,
    first: u64,
    traits: Vec<Traits>,
}

impl Songs {
    pub fn of(style: u8, first: u64, count: u64) -> Songs {
        let seeds = (0..count).map(|i| first + i);
        let traits = seeds.map(|seed| Traits::of(style, seed)).collect();
        Songs {
            style,
            first,
            traits,
        }
    }

    pub fn traits(&self) -> &[Traits] {
        &self.traits
    }

    pub fn seed(&self, place: usize) -> u64 {
        self.first + place as u64
    }

    /// A wish over the songs of these places.
    pub fn lesson(&self, places: Range<usize>, wish: Wish) -> Lesson {
        Lesson {
            style: self.style,
            start: self.seed(places.start),
            count: places.len() as u64,
            wish,
        }
    }

    /// A wish over all the songs.
    pub fn whole(&self, wish: Wish) -> Lesson {
        self.lesson(0..self.traits.len(), wish)
    }

    /// What has to be answered. Where no song needs to be asked, the songs may be any.
    pub fn judge(&self, lesson: &Lesson) -> Judged {
        lesson.sound()?;
        assert_eq!(self.style, lesson.style, "the songs are of the style");
        let from = (lesson.start - self.first) as usize;
        let asked = from..from + lesson.count as usize;
        let fitting = asked.filter(|&place| self.traits[place].has(lesson.wish));
        let seeds: Vec<u64> = fitting.map(|place| self.seed(place)).collect();
        match seeds.is_empty() {
            true => Err(12),
            false => Ok(seeds),
        }
    }

    /// The same wish over the places around one whose song has what is wished for, up to the next ones on both sides
    /// whose songs have it too: spans that start there, that end there and that have it in between, where that seed
    /// alone fits; and, where there are any, the places on either side, where none does.
    pub fn narrowed(&self, place: usize, wish: Wish) -> ([Lesson; 3], Vec<Lesson>) {
        let fits = |place: &usize| self.traits[*place].has(wish);
        assert!(fits(&place), "the song has what is wished for");
        let from = (0..place).rev().find(fits).map_or(0, |before| before + 1);
        let to = (place + 1..self.traits.len()).find(fits);
        let to = to.unwrap_or(self.traits.len());
        let alone = [place..to, from..place + 1, from..to];
        let without = [from..place, place + 1..to].into_iter();
        let without = without.filter(|places| !places.is_empty());
        let lesson = |places: Range<usize>| self.lesson(places, wish);
        (alone.map(lesson), without.map(lesson).collect())
    }
}
