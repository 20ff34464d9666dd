//! Types of values and their codes in a lent heap.

/// Whether a pointer is checked at every access.
#[derive(Clone, Copy, Debug, PartialEq, Eq, Hash)]
pub enum Mode {
    Checked,
    Unchecked,
}

/// The type of a value.
#[derive(Clone, Copy, Debug, PartialEq, Eq, Hash)]
pub enum Kind {
    Int,
    /// A pointer to one word of the word type with this number.
    Word {
        mode: Mode,
        of: u8,
    },
    /// A pointer to a struct, by the struct's number.
    Struct {
        mode: Mode,
        of: u8,
    },
    /// A pointer to so many words of the word type with this number.
    Array {
        mode: Mode,
        count: u16,
        of: u8,
    },
}

impl Kind {
    /// The kind with this code: tag = code % 8, number = code / 8 % 256, count =
    /// code / 2048 % 65536. None for tag 0, an undefined word.
    pub fn from_code(code: u64) -> Option<Kind> {
        let mode = match code % 2 {
            0 => Mode::Checked,
            _ => Mode::Unchecked,
        };
        let of = (code / 8 % 256) as u8;
        let count = (code / 2_048 % 65_536) as u16;
        match code % 8 {
            0 => None,
            1 => Some(Kind::Int),
            2 | 3 => Some(Kind::Word { mode, of }),
            4 | 5 => Some(Kind::Struct { mode, of }),
            _ => Some(Kind::Array { mode, count, of }),
        }
    }

    /// The code of this kind.
    pub fn code(self) -> u64 {
        let (tag, mode, of, count) = match self {
            Kind::Int => return 1,
            Kind::Word { mode, of } => (2, mode, of, 0),
            Kind::Struct { mode, of } => (4, mode, of, 0),
            Kind::Array { mode, count, of } => (6, mode, of, count),
        };
        let unchecked = u64::from(mode == Mode::Unchecked);
        tag + unchecked + 8 * u64::from(of) + 2_048 * u64::from(count)
    }
}
