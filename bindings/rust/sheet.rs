//! What stands on a sheet, read from its bytes and laid out in them again. docs/FORMAT.md says what each byte means.
//!
//! Which bytes are a sheet is for the proved reader, `seqochanu_reread`, to say. So what is taken apart here is what
//! the reader has written again, and what is laid out here is given to it to be read. There is no second list of
//! ranges that could differ from the reader's.

use super::{Edition, Refusal, SHEET_MOST, Style, reread};

/// The lead's voice; its number is the one on the sheet.
#[derive(Clone, Copy, Debug, PartialEq, Eq)]
#[repr(u8)]
pub enum Voice {
    /// an electric piano
    EpVel = 0,
    /// a plucked string
    Pluck = 1,
    Kalimba = 2,
    Vibraphone = 3,
}

/// Why a note is what it is; its number is the one on the sheet.
#[derive(Clone, Copy, Debug, PartialEq, Eq)]
#[repr(u8)]
pub enum Role {
    /// loop bar 4 opens on the first notes of loop bar 0
    Quote = 0,
    /// the last note of loop bar 7
    Close = 1,
    /// the first note of loop bar 5, lifted onto a chord tone
    Peak = 2,
    /// a step back after a leap
    Resolve = 3,
    ChordTone = 4,
    /// a step or two along the scale
    Passing = 5,
    /// a note of the keys or the bass, and on a sheet of edition 1 every note
    Backing = 6,
}

/// A kind of drum; its number is the one on the sheet.
#[derive(Clone, Copy, Debug, PartialEq, Eq)]
#[repr(u8)]
pub enum Drum {
    Kick = 0,
    Snare = 1,
    Hat = 2,
    OpenHat = 3,
}

/// How a song begins or ends; its number is the one on the sheet.
#[derive(Clone, Copy, Debug, PartialEq, Eq)]
#[repr(u8)]
pub enum EndingKind {
    /// with no bars of its own
    Cold = 0,
    Plain = 1,
    Fade = 2,
    Filter = 3,
    /// in two bars; no intro has this kind
    RingsOut = 4,
}

// By their numbers.
const VOICES: [Voice; 4] = [
    Voice::EpVel,
    Voice::Pluck,
    Voice::Kalimba,
    Voice::Vibraphone,
];
const ROLES: [Role; 7] = [
    Role::Quote,
    Role::Close,
    Role::Peak,
    Role::Resolve,
    Role::ChordTone,
    Role::Passing,
    Role::Backing,
];
const DRUMS: [Drum; 4] = [Drum::Kick, Drum::Snare, Drum::Hat, Drum::OpenHat];
const ENDINGS: [EndingKind; 5] = [
    EndingKind::Cold,
    EndingKind::Plain,
    EndingKind::Fade,
    EndingKind::Filter,
    EndingKind::RingsOut,
];

/// A note of the lead, the keys or the bass. The bar is the loop's, 0 to 7; times are in seconds from the loop's
/// start.
#[derive(Clone, Copy, Debug, PartialEq)]
pub struct Note {
    pub bar: u8,
    pub time: f32,
    pub midi: u8,
    pub velocity: f32,
    pub duration: f32,
    pub role: Role,
}

/// A drum's hit, with bar and time as a note has them.
#[derive(Clone, Copy, Debug, PartialEq)]
pub struct Hit {
    pub bar: u8,
    pub kind: Drum,
    pub time: f32,
    pub gain: f32,
}

/// An intro or an outro, and how many bars it has.
#[derive(Clone, Copy, Debug, PartialEq, Eq)]
pub struct Ending {
    pub kind: EndingKind,
    pub bars: u8,
}

/// Which layers play in a song bar. The lead plays with the keys.
#[derive(Clone, Copy, Debug, PartialEq, Eq)]
pub struct Plays {
    pub pad: bool,
    pub keys: bool,
    pub drums: bool,
    pub bass: bool,
}

/// The song's form; `bars` has an entry for each song bar, those of intro and outro too.
#[derive(Clone, Debug, PartialEq, Eq)]
pub struct Form {
    pub intro: Ending,
    pub phrases: u8,
    pub outro: Ending,
    pub dip: bool,
    pub bars: Vec<Plays>,
}

/// What stands on a sheet. Its fields are open, so a value made by hand may be none that a sheet has: `to_bytes`
/// tells.
///
/// `==` takes 0.0 and -0.0 for equal, as it does of every f32; where that counts, compare the bytes.
#[derive(Clone, Debug, PartialEq)]
pub struct Sheet {
    pub edition: Edition,
    pub style: Style,
    pub seed: u64,
    pub voice: Voice,
    /// in beats per minute
    pub tempo: f32,
    /// the chord of each loop bar, as MIDI notes
    pub chords: [[u8; 4]; 8],
    /// the melody's pitch classes
    pub scale: Vec<u8>,
    pub lead: Vec<Note>,
    pub keys: Vec<Note>,
    pub hits: Vec<Hit>,
    pub bass: Vec<Note>,
    pub form: Form,
}

impl Sheet {
    /// What stands on a sheet, of either edition. Bytes that are none are refused with `SheetFields`, then
    /// `SheetValues`.
    pub fn parse(bytes: &[u8]) -> Result<Self, Refusal> {
        // no sheet is longer, so the buffer is never too short
        let mut read = [0; SHEET_MOST];
        let len = reread(bytes, &mut read)?;
        Ok(Self::taken_apart(&read[..len]))
    }

    /// The sheet's bytes, in its edition, from which `parse` gives this value again.
    ///
    /// A value that no sheet has is refused with `Malformed`: one with 57 lead notes or 62 bars, say, with a bar 8 or
    /// a NaN, with bars that are not as many as intro, phrases and outro make, or with a role that its edition does
    /// not have there. No other refusal is given.
    pub fn to_bytes(&self) -> Result<Vec<u8>, Refusal> {
        let laid = self.laid_out();
        let mut bytes = vec![0; laid.len()];
        // there is room for what is read, so the refusal is the reader's, which finds no sheet in these bytes
        reread(&laid, &mut bytes).map_err(|_| Refusal::Malformed)?;
        // edition 1 has no place for a role: then these are the bytes of another value, whose notes have none
        let kept = Self::taken_apart(&bytes) == *self;
        kept.then_some(bytes).ok_or(Refusal::Malformed)
    }

    /// The value of a sheet that the reader wrote, so that every code is known and every list as long as its field.
    fn taken_apart(sheet: &[u8]) -> Self {
        let edition = Edition::of(sheet);
        let notes = |lane: &[u8]| {
            let notes = lane.chunks_exact(edition.note_width());
            notes.map(Note::at).collect()
        };
        let [
            song,
            tempo,
            chords,
            scale,
            lead,
            keys,
            hits,
            bass,
            form,
            bars,
        ] = bodies(&sheet[edition.opening().len()..]);
        Self {
            edition,
            style: Style::try_from(song[0]).expect("the reader knows the styles"),
            seed: u64::from_be_bytes(array(&song[1..9])),
            voice: VOICES[usize::from(song[9])],
            tempo: float(tempo),
            chords: std::array::from_fn(|bar| array(&chords[4 * bar..][..4])),
            scale: scale.to_vec(),
            lead: notes(lead),
            keys: notes(keys),
            hits: hits.chunks_exact(10).map(Hit::at).collect(),
            bass: notes(bass),
            form: Form {
                intro: Ending::at(&form[..2]),
                phrases: form[2],
                outro: Ending::at(&form[3..5]),
                dip: form[5] == 1,
                bars: bars.iter().map(|&bits| Plays::by(bits)).collect(),
            },
        }
    }

    /// The fields of this value, be it one that a sheet has or not; in edition 1 its roles are left out.
    fn laid_out(&self) -> Vec<u8> {
        let note = |note: &Note| note.bytes(self.edition);
        let notes = |lane: &[Note]| lane.iter().flat_map(note).collect::<Vec<u8>>();
        let Form {
            intro,
            phrases,
            outro,
            dip,
            bars,
        } = &self.form;
        let mut song = vec![self.style as u8];
        song.extend(self.seed.to_be_bytes());
        song.push(self.voice as u8);
        let fields = [
            song,
            self.tempo.to_be_bytes().to_vec(),
            self.chords.concat(),
            self.scale.clone(),
            notes(&self.lead),
            notes(&self.keys),
            self.hits.iter().flat_map(Hit::bytes).collect(),
            notes(&self.bass),
            vec![
                intro.kind as u8,
                intro.bars,
                *phrases,
                outro.kind as u8,
                outro.bars,
                (*dip).into(),
            ],
            bars.iter().map(Plays::bits).collect(),
        ];
        let fields = (1..).zip(fields).flat_map(field).collect::<Vec<u8>>();
        [self.edition.opening(), &fields].concat()
    }
}

impl Note {
    /// The note in its bytes, of either edition.
    fn at(bytes: &[u8]) -> Self {
        let (bytes, role) = bytes.split_at(Edition::One.note_width());
        let role = role.first().map(|&number| ROLES[usize::from(number)]);
        Self {
            bar: bytes[0],
            time: float(&bytes[1..5]),
            midi: bytes[5],
            velocity: float(&bytes[6..10]),
            duration: float(&bytes[10..]),
            role: role.unwrap_or(Role::Backing),
        }
    }

    fn bytes(&self, edition: Edition) -> Vec<u8> {
        let mut bytes = vec![self.bar];
        bytes.extend(self.time.to_be_bytes());
        bytes.push(self.midi);
        bytes.extend(self.velocity.to_be_bytes());
        bytes.extend(self.duration.to_be_bytes());
        bytes.push(self.role as u8);
        bytes.truncate(edition.note_width());
        bytes
    }
}

impl Hit {
    /// The hit in 10 bytes.
    fn at(bytes: &[u8]) -> Self {
        Self {
            bar: bytes[0],
            kind: DRUMS[usize::from(bytes[1])],
            time: float(&bytes[2..6]),
            gain: float(&bytes[6..]),
        }
    }

    fn bytes(&self) -> [u8; 10] {
        let mut bytes = [0; 10];
        bytes[0] = self.bar;
        bytes[1] = self.kind as u8;
        bytes[2..6].copy_from_slice(&self.time.to_be_bytes());
        bytes[6..].copy_from_slice(&self.gain.to_be_bytes());
        bytes
    }
}

impl Ending {
    /// The ending in 2 bytes.
    fn at(bytes: &[u8]) -> Self {
        Self {
            kind: ENDINGS[usize::from(bytes[0])],
            bars: bytes[1],
        }
    }
}

impl Plays {
    fn by(bits: u8) -> Self {
        Self {
            pad: bits & 1 != 0,
            keys: bits & 2 != 0,
            drums: bits & 4 != 0,
            bass: bits & 8 != 0,
        }
    }

    fn bits(&self) -> u8 {
        let bit = u8::from;
        bit(self.pad) | bit(self.keys) << 1 | bit(self.drums) << 2 | bit(self.bass) << 3
    }
}

fn array<const N: usize>(bytes: &[u8]) -> [u8; N] {
    bytes.try_into().expect("N bytes are given")
}

fn float(bytes: &[u8]) -> f32 {
    f32::from_be_bytes(array(bytes))
}

/// The bodies of ten fields.
fn bodies(mut fields: &[u8]) -> [&[u8]; 10] {
    std::array::from_fn(|_| {
        let (head, rest) = fields.split_at(3);
        let (body, after) = rest.split_at(u16::from_be_bytes([head[1], head[2]]).into());
        fields = after;
        body
    })
}

/// A field: its tag, its length and its body. A body too long for two bytes of length is said to have 65,535, which no
/// field of a sheet has, and is refused for it.
fn field((tag, body): (u8, Vec<u8>)) -> Vec<u8> {
    let len = u16::try_from(body.len()).unwrap_or(u16::MAX);
    let mut bytes = vec![tag];
    bytes.extend(len.to_be_bytes());
    bytes.extend(body);
    bytes
}

#[cfg(test)]
#[path = "sheet_tests.rs"]
mod tests;
