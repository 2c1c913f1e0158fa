//! Scores and kicks in words, as crate `probe` lays them out.

use crate::compose::reach::{EventBars, Hit, Note, Take, kind_code, voice_code};

/// A lane's capacity and what each word of an entry says.
struct Lane {
    name: &'static str,
    most: usize,
    fields: &'static [&'static str],
}

const NOTE: [&str; 5] = ["bar", "time", "MIDI note", "velocity", "duration"];
const HIT: [&str; 4] = ["bar", "time", "kind", "gain"];

const LANES: [Lane; 4] = [
    Lane {
        name: "lead note",
        most: 56,
        fields: &NOTE,
    },
    Lane {
        name: "keys note",
        most: 128,
        fields: &NOTE,
    },
    Lane {
        name: "hit",
        most: 98,
        fields: &HIT,
    },
    Lane {
        name: "bass note",
        most: 104,
        fields: &NOTE,
    },
];

/// What each of the first words says.
const NUMBERS: [&str; 22] = [
    "refusal",
    "style",
    "tempo",
    "lead voice",
    "count of lead notes",
    "count of keys notes",
    "count of hits",
    "count of bass notes",
    "counter of the harmony",
    "counter of the tempo",
    "counter of the lead",
    "counter of the keys",
    "counter of the drums",
    "counter of the bass",
    "counter of the voice",
    "count of the scale",
    "class 0 of the scale",
    "class 1 of the scale",
    "class 2 of the scale",
    "class 3 of the scale",
    "class 4 of the scale",
    "class 5 of the scale",
];

/// How many words a score has, and the kicks.
pub const WORDS: usize = 1894;
pub const KICK_WORDS: usize = 100;

fn bits(x: f32) -> u64 {
    x.to_bits().into()
}

/// The bits of a number that a song has: document 01 says that no NaN and no negative zero arises.
fn plain(x: f32) -> u64 {
    assert!(x.is_finite() && x.is_sign_positive(), "{x} in a song");
    bits(x)
}

fn note_words(note: &Note, bar: u64) -> [u64; 5] {
    let midi = note.midi.into();
    [bar, plain(note.at), midi, plain(note.vel), plain(note.dur)]
}

fn hit_words(hit: &Hit, bar: u64) -> [u64; 4] {
    [bar, plain(hit.at), kind_code(hit), plain(hit.gain)]
}

/// The entries of a lane, and zeros up to its capacity.
fn push_lane<E, const N: usize>(
    words: &mut Vec<u64>,
    most: usize,
    events: &[E],
    bars: &[u64],
    entry: impl Fn(&E, u64) -> [u64; N],
) {
    assert_eq!(events.len(), bars.len(), "each event has its bar");
    let end = words.len() + most * N;
    words.extend(events.iter().zip(bars).flat_map(|(e, &bar)| entry(e, bar)));
    assert!(words.len() <= end, "a lane has no more than its capacity");
    words.resize(end, 0);
}

/// The first words of the take, the style by its number.
fn numbers(style: u8, take: &Take) -> [u64; 22] {
    let score = &take.score;
    let count = |n: usize| n as u64;
    let [harmony, tempo, lead, keys, drums, bass, voice] = take.counters;
    let class = |i: usize| take.scale.get(i).map_or(0, |&pc| pc.into());
    [
        0,
        style.into(),
        plain(score.bpm),
        voice_code(score),
        count(score.sparkle.len()),
        count(score.keys.len()),
        count(score.drums.len()),
        count(score.bass.len()),
        harmony,
        tempo,
        lead,
        keys,
        drums,
        bass,
        voice,
        count(take.scale.len()),
        class(0),
        class(1),
        class(2),
        class(3),
        class(4),
        class(5),
    ]
}

/// The take's words: numbers, then each bar's chord, its root's class first, then the lanes.
pub fn words_of(style: u8, take: &Take) -> Vec<u64> {
    let score = &take.score;
    let mut words = numbers(style, take).to_vec();
    for (root, notes) in take.roots.iter().zip(score.bar_chords) {
        words.push((*root).into());
        words.extend(notes.map(u64::from));
    }
    let EventBars {
        lead,
        keys,
        hits,
        bass,
    } = &take.bars;
    let most = LANES.map(|lane| lane.most);
    push_lane(&mut words, most[0], &score.sparkle, lead, note_words);
    push_lane(&mut words, most[1], &score.keys, keys, note_words);
    push_lane(&mut words, most[2], &score.drums, hits, hit_words);
    push_lane(&mut words, most[3], &score.bass, bass, note_words);
    assert_eq!(words.len(), WORDS, "a score has so many words");
    words
}

/// The kicks' words: no refusal, how many there are, and their times with zeros up to 98.
pub fn kick_words(times: &[f32]) -> Vec<u64> {
    let mut words = vec![0, times.len() as u64];
    words.extend(times.iter().copied().map(bits));
    words.resize(KICK_WORDS, 0);
    words
}

/// What word k of a score says.
pub fn word_name(k: usize) -> String {
    if k < 22 {
        return NUMBERS[k].into();
    }
    if k < 62 {
        return format!("word {} of bar {}'s chord", (k - 22) % 5, (k - 22) / 5);
    }
    let mut at = 62;
    for lane in LANES {
        let size = lane.fields.len();
        if k < at + lane.most * size {
            let (i, field) = ((k - at) / size, (k - at) % size);
            return format!("{} of {} {i}", lane.fields[field], lane.name);
        }
        at += lane.most * size;
    }
    format!("word {k}, of no score")
}

/// What word k of the kicks says.
pub fn kick_name(k: usize) -> String {
    match k {
        0 => "refusal".into(),
        1 => "count".into(),
        _ => format!("time {}", k - 2),
    }
}
