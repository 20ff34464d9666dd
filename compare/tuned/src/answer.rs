//! What an image answers.

/// A refusal: a number of 01's table and its place, packed into one number. An
/// image that is read at all has at most 16,384 bytes, so sixteen bits hold
/// every place; and a `Result` of two plain numbers travels in registers.
#[derive(Clone, Copy, PartialEq, Eq)]
pub struct Refusal(u32);

impl Refusal {
    #[inline(always)]
    pub fn new(number: u32, place: usize) -> Refusal {
        Refusal(number << 16 | place as u32 & 0xFFFF)
    }

    pub fn number(self) -> u32 {
        self.0 >> 16
    }

    pub fn place(self) -> u32 {
        self.0 & 0xFFFF
    }
}

impl std::fmt::Debug for Refusal {
    fn fmt(&self, to: &mut std::fmt::Formatter) -> std::fmt::Result {
        write!(to, "refused {} at {}", self.number(), self.place())
    }
}

pub const ENDS: u32 = 1;
pub const NUMBER: u32 = 2;
pub const FORMAT: u32 = 3;
pub const LIMIT: u32 = 4;
pub const UNKNOWN: u32 = 5;
pub const REPEAT: u32 = 6;
pub const ADDRESS: u32 = 7;
pub const FOLLOW: u32 = 8;
pub const RULE: u32 = 9;
pub const LITERAL: u32 = 10;

/// A refusal as an error, ready for `?`.
#[inline(always)]
pub fn refuse<T>(number: u32, place: usize) -> Result<T, Refusal> {
    Err(Refusal::new(number, place))
}

/// The ends, numbered as the C interface numbers them.
#[derive(Clone, Copy, Debug, PartialEq, Eq)]
pub enum End {
    Value = 0,
    Null = 1,
    Bounds = 2,
    Room = 3,
    Stuck = 4,
    More = 5,
}

/// A run's result; value and kind are 0 and int where the end isn't Value.
#[derive(Clone, Copy, Debug, PartialEq, Eq)]
pub struct Outcome {
    pub end: End,
    pub value: u32,
    /// The kind's code.
    pub kind: u32,
    pub steps: u64,
    pub first: u64,
}

#[derive(Clone, Copy, Debug, PartialEq, Eq)]
pub enum Answer {
    Refused(Refusal),
    Ran(Outcome),
}

impl Answer {
    /// The six numbers of the C interface.
    pub fn numbers(&self) -> [u64; 6] {
        match *self {
            Answer::Refused(refusal) => {
                [0, refusal.number().into(), refusal.place().into(), 0, 0, 0]
            }
            Answer::Ran(run) => [
                1,
                run.end as u64,
                run.value.into(),
                run.kind.into(),
                run.steps,
                run.first,
            ],
        }
    }
}
