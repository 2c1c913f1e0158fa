//! The two editions of a sheet, by document 02: what tells them apart, and how many bytes things have.

/// The edition that a sheet is in. Pages are in edition 2.
#[derive(Clone, Copy, Debug, PartialEq)]
pub enum Edition {
    One,
    Two,
}

pub const EDITIONS: [Edition; 2] = [Edition::One, Edition::Two];

/// The role of each keys note and of each bass note. Those of lead notes are the numbers below.
pub const BACKING: u8 = 6;

/// The most bytes of a page, by what is proved, and of a sheet of either edition.
pub const PAGE_MOST: usize = 703;
pub const SHEET_MOST: usize = Edition::Two.sheet_most();

/// How many bytes a hit has, in both editions.
pub const HIT_WIDTH: usize = 10;

impl Edition {
    /// The edition of these bytes, if they are a sheet: one without the field 0x00 is edition 1.
    pub fn of(sheet: &[u8]) -> Edition {
        match sheet.first() {
            Some(0x00) => Edition::Two,
            _ => Edition::One,
        }
    }

    pub const fn other(self) -> Edition {
        match self {
            Edition::One => Edition::Two,
            Edition::Two => Edition::One,
        }
    }

    /// The number in the field 0x00 that leads a sheet; edition 1 has no such field.
    pub const fn name(self) -> Option<u8> {
        match self {
            Edition::One => None,
            Edition::Two => Some(2),
        }
    }

    /// How many bytes a note has: in edition 2 its role is the last of them.
    pub const fn note_width(self) -> usize {
        match self {
            Edition::One => 14,
            Edition::Two => 15,
        }
    }

    /// How many bytes an event has in the field of this tag.
    pub const fn event_width(self, tag: u8) -> usize {
        match tag {
            0x07 => HIT_WIDTH,
            _ => self.note_width(),
        }
    }

    /// The most bytes of a sheet.
    pub const fn sheet_most(self) -> usize {
        match self {
            Edition::One => 5164,
            Edition::Two => 5456,
        }
    }
}
