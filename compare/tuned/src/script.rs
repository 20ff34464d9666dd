//! The row of operations that an expression becomes.
//!
//! There are no jumps in a script, so its steps come in one order: parts
//! before the node, left before right, a let's own step between its bound part
//! and its body. `pass` writes the operations in that order, and the run goes
//! through the row once.

use crate::codes;

pub const MOST_NODES: usize = 2_048;
pub const MOST_DEPTH: usize = 64;

/// An operation is `code << 59 | kind << 32 | number`, so that a literal's
/// operation (code 0) is the packed value itself. The codes are the image's
/// node codes, and one more.
pub mod operation {
    pub const LITERAL: u32 = 0;
    pub const VARIABLE: u32 = 1;
    pub const LET: u32 = 2;
    pub const MALLOC: u32 = 3;
    pub const UNWRAP: u32 = 4;
    pub const CAST: u32 = 5;
    pub const READ: u32 = 6;
    pub const ASSIGN: u32 = 7;
    pub const SUM: u32 = 8;
    pub const FIELD: u32 = 9;
    /// A sum whose right side is a literal, with its number.
    pub const ADD: u32 = 10;
}

#[inline(always)]
pub fn pack(number: u32, kind: u32) -> u64 {
    u64::from(kind) << 32 | u64::from(number)
}

#[inline(always)]
pub fn code(operation: u64) -> u32 {
    (operation >> (32 + codes::BITS)) as u32
}

pub struct Script {
    pub length: usize,
    pub operations: [u64; MOST_NODES],
    /// How many of the operations are steps.
    pub steps: u32,
    /// The number of the first step inside an unchecked block, 0 if none.
    pub first_inside: u32,
    pub allocates: bool,
}

impl Script {
    pub const fn new() -> Script {
        Script {
            length: 0,
            operations: [0; MOST_NODES],
            steps: 0,
            first_inside: 0,
            allocates: false,
        }
    }

    /// The row.
    #[inline(always)]
    pub fn row(&self) -> &[u64] {
        &self.operations[..self.length.min(MOST_NODES)]
    }

    /// How many steps lie before a place in the row.
    pub fn steps_before(&self, place: usize) -> u64 {
        let before = self.row().iter().take(place);
        before.filter(|operation| is_step(**operation)).count() as u64
    }

    /// The place of the step that has so many before it, if there is one.
    pub fn place_of(&self, steps: u64) -> Option<usize> {
        let row = self.row().iter().enumerate();
        let mut places = row.filter(|(_, operation)| is_step(**operation));
        let (place, _) = places.nth(usize::try_from(steps).ok()?)?;
        Some(place)
    }
}

fn is_step(operation: u64) -> bool {
    code(operation) >= operation::LET
}
