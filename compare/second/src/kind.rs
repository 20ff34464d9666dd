//! Types of values, targets and values.

/// "mode (0 checked, 1 unchecked)"
#[derive(PartialEq, Eq, PartialOrd, Ord, Clone, Copy, Debug)]
pub enum Mode {
    Checked,
    Unchecked,
}

/// "Types of values are int or a pointer with mode and target; a target is a
/// word type, a struct or an array."
///
/// `of` is a word type number (for words and arrays) or a struct number. "No
/// two entries are equal, so equal types have equal numbers": two kinds are
/// the same type exactly if they are equal as data.
#[derive(PartialEq, Eq, PartialOrd, Ord, Clone, Copy, Debug)]
pub enum Kind {
    Int,
    Word { mode: Mode, of: u8 },
    Struct { mode: Mode, of: u8 },
    Array { mode: Mode, count: u16, of: u8 },
}

/// What a pointer points to.
#[derive(PartialEq, Eq, Clone, Copy, Debug)]
pub enum Target {
    Word { of: u8 },
    Struct { of: u8 },
    Array { count: u16, of: u8 },
}

/// "A word is undefined or holds a value together with its type." The number
/// is always below 2^32.
#[derive(PartialEq, Eq, PartialOrd, Ord, Clone, Copy, Debug)]
pub struct Value {
    pub number: u64,
    pub kind: Kind,
}

impl Kind {
    /// The pointer type with this mode and target.
    pub fn pointer(mode: Mode, target: Target) -> Kind {
        match target {
            Target::Word { of } => Kind::Word { mode, of },
            Target::Struct { of } => Kind::Struct { mode, of },
            Target::Array { count, of } => Kind::Array { mode, count, of },
        }
    }

    /// Mode and target of a pointer type; nothing for int.
    pub fn split(self) -> Option<(Mode, Target)> {
        match self {
            Kind::Int => None,
            Kind::Word { mode, of } => Some((mode, Target::Word { of })),
            Kind::Struct { mode, of } => Some((mode, Target::Struct { of })),
            Kind::Array { mode, count, of } => Some((mode, Target::Array { count, of })),
        }
    }

    pub fn is_checked_pointer(self) -> bool {
        matches!(self.split(), Some((Mode::Checked, _)))
    }
}
