//! The two editions of the sheet: all in which their bytes differ.

/// How a sheet is laid out. `sheet` writes the second edition; sheets of the first are still read, and `convert` turns
/// each into the other.
#[derive(Clone, Copy, Debug, PartialEq, Eq)]
pub enum Edition {
    /// its notes have no roles
    One,
    Two,
}

impl Edition {
    /// The length of its longest sheet, in bytes.
    pub const fn sheet_most(self) -> usize {
        match self {
            Self::One => 5164,
            Self::Two => 5456,
        }
    }

    /// What its sheets begin with, before the ten fields of both editions: the field 0x00, which has its number.
    pub(super) const fn opening(self) -> &'static [u8] {
        match self {
            Self::One => &[],
            Self::Two => &[0x00, 0, 1, 2],
        }
    }

    /// The bytes of a note; behind those of edition 1 stands its role.
    pub(super) const fn note_width(self) -> usize {
        match self {
            Self::One => 14,
            Self::Two => 15,
        }
    }

    /// The edition of a sheet that the reader wrote.
    pub(super) fn of(sheet: &[u8]) -> Self {
        if sheet.starts_with(Self::Two.opening()) {
            Self::Two
        } else {
            Self::One
        }
    }
}
