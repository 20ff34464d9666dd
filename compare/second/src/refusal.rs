//! What a refused image answers: a number of the table and a place.

#[derive(PartialEq, Eq, Clone, Copy, Debug)]
pub struct Refusal {
    pub number: u8,
    pub place: usize,
}

/// "the image ends inside a number or before the expression is complete"
pub const ENDS: u8 = 1;
/// "a number is too large or not shortest"
pub const NUMBER: u8 = 2;
/// "the first number isn't 1"
pub const FORMAT: u8 = 3;
/// "a count, depth or size is outside the limits above"
pub const LIMIT: u8 = 4;
/// "a mode, target kind, node code, type, struct or variable number is unknown"
pub const UNKNOWN: u8 = 5;
/// "a type entry repeats an earlier one, or a gap is 0"
pub const REPEAT: u8 = 6;
/// "an address is above W"
pub const ADDRESS: u8 = 7;
/// "bytes follow the expression"
pub const FOLLOW: u8 = 8;
/// "no typing rule fits a node"
pub const RULE: u8 = 9;
/// "a literal isn't well typed over the heap"
pub const LITERAL: u8 = 10;

/// A refusal as an error, ready for `?`.
pub fn refuse<T>(number: u8, place: usize) -> Result<T, Refusal> {
    Err(Refusal { number, place })
}
