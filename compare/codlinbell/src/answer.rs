//! What an image answers.

use crate::kind::Kind;

/// Why an image was refused.
#[derive(Clone, Copy, Debug, PartialEq, Eq, Hash)]
pub enum Fault {
    /// 1: the image ends inside a number or before the expression is complete.
    Ends = 1,
    /// 2: a number is too large or not written the shortest way.
    Number = 2,
    /// 3: the first number isn't 1, the format.
    Format = 3,
    /// 4: a count, a depth or the image's size is outside its limits.
    Limit = 4,
    /// 5: a mode, target kind, node code, type, struct or variable number is
    /// unknown.
    Unknown = 5,
    /// 6: a type entry repeats an earlier one, or a gap is 0.
    Repeat = 6,
    /// 7: a cell's address is above the lent heap's words.
    Address = 7,
    /// 8: bytes follow the expression.
    Follow = 8,
    /// 9: no typing rule fits a node.
    Rule = 9,
    /// 10: a literal isn't well typed over the heap.
    Literal = 10,
}

impl Fault {
    const ALL: [Fault; 10] = [
        Fault::Ends,
        Fault::Number,
        Fault::Format,
        Fault::Limit,
        Fault::Unknown,
        Fault::Repeat,
        Fault::Address,
        Fault::Follow,
        Fault::Rule,
        Fault::Literal,
    ];

    /// The fault with this number, 1 to 10.
    pub fn from_number(number: u64) -> Option<Fault> {
        Fault::ALL.into_iter().find(|fault| *fault as u64 == number)
    }
}

/// A refused image. The lent heap is as it was.
#[derive(Clone, Copy, Debug, PartialEq, Eq, Hash)]
pub struct Refusal {
    pub fault: Fault,
    /// A byte's offset in the image, or for the last two faults a node's
    /// number.
    pub place: u64,
}

/// How a run ended.
#[derive(Clone, Copy, Debug, PartialEq, Eq, Hash)]
pub enum End {
    /// With a value of a type.
    Value { value: u32, kind: Kind },
    /// A checked pointer was 0.
    Null,
    /// A checked array pointer was at its end.
    Bounds,
    /// No run of undefined words was long enough for a malloc.
    Room,
    /// No step fits; only unchecked code can bring this about.
    Stuck,
    /// The limit's steps were taken and there is more to do.
    More,
}

/// A run that took place. The lent heap is as after its steps.
#[derive(Clone, Copy, Debug, PartialEq, Eq, Hash)]
pub struct Outcome {
    pub end: End,
    /// How many steps were taken.
    pub steps: u64,
    /// The number of the first unchecked step, None if there was none.
    pub first_unchecked: Option<u64>,
}

#[derive(Clone, Copy, Debug, PartialEq, Eq, Hash)]
pub enum Answer {
    Refused(Refusal),
    Ran(Outcome),
}

/// "A Value gives its number as the reading. Every other end gives none."
#[derive(Clone, Copy, Debug, PartialEq, Eq, Hash)]
pub enum Reading {
    Number(u32),
    None,
}

impl Answer {
    /// The answer that the C interface's six numbers stand for; None if they
    /// stand for none, which the library's contract rules out.
    pub fn from_numbers(numbers: [u64; 6]) -> Option<Answer> {
        let [ran, what, value, code, steps, first] = numbers;
        match ran {
            0 => Some(Answer::Refused(Refusal {
                fault: Fault::from_number(what)?,
                place: value,
            })),
            1 => Some(Answer::Ran(Outcome {
                end: end(what, value, code)?,
                steps,
                first_unchecked: if first == 0 { None } else { Some(first) },
            })),
            _ => None,
        }
    }

    /// The reading that a user sees.
    pub fn reading(&self) -> Reading {
        match self {
            Answer::Ran(Outcome {
                end: End::Value { value, .. },
                ..
            }) => Reading::Number(*value),
            _ => Reading::None,
        }
    }
}

fn end(number: u64, value: u64, code: u64) -> Option<End> {
    match number {
        0 => Some(End::Value {
            value: u32::try_from(value).ok()?,
            kind: Kind::from_code(code)?,
        }),
        1 => Some(End::Null),
        2 => Some(End::Bounds),
        3 => Some(End::Room),
        4 => Some(End::Stuck),
        5 => Some(End::More),
        _ => None,
    }
}
