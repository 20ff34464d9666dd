//! A run: once through the row of operations, values beside it on a stack.

use crate::answer::{End, Outcome};
use crate::codes::{self, CHECKED_ARRAY, CHECKED_STRUCT, INT};
use crate::free::Free;
use crate::script::{code, operation, pack, Script, MOST_DEPTH};
use crate::tables::Tables;

/// A halt or a stuck redex, or the next value.
type Step = Result<u64, End>;

/// The rows that a run needs, kept from image to image.
pub struct Values {
    /// The values below the topmost.
    stack: [u64; MOST_DEPTH],
    /// The values of the lets around, by how far in they are.
    lets: [u64; MOST_DEPTH],
}

impl Values {
    pub const fn new() -> Values {
        Values {
            stack: [0; MOST_DEPTH],
            lets: [0; MOST_DEPTH],
        }
    }
}

pub struct Run<'a> {
    tables: &'a Tables,
    free: &'a mut Free,
    /// Exactly the heap's words, two numbers each.
    heap: &'a mut [u64],
    values: &'a mut Values,
    height: usize,
}

#[inline(always)]
fn number(value: u64) -> u32 {
    value as u32
}

#[inline(always)]
fn kind(value: u64) -> u32 {
    (value >> 32) as u32
}

impl<'a> Run<'a> {
    pub fn new(
        tables: &'a Tables,
        free: &'a mut Free,
        heap: &'a mut [u64],
        values: &'a mut Values,
    ) -> Run<'a> {
        Run {
            tables,
            free,
            heap,
            values,
            height: 0,
        }
    }

    #[inline(never)]
    pub fn run(mut self, script: &Script, limit: u64) -> Outcome {
        // Where the limit is beyond the last step, nothing has to be counted on
        // the way.
        let cut = if limit < script.steps.into() {
            script.place_of(limit)
        } else {
            None
        };
        let row = script.row();
        let whole = &row[..cut.unwrap_or(row.len()).min(row.len())];
        // The topmost value; what it is at the start is never used.
        let mut top = 0;
        for (place, &operation) in whole.iter().enumerate() {
            match self.step(operation, top) {
                Ok(value) => top = value,
                Err(end) => return ended(script, end, steps_until(script, place, end)),
            }
        }
        match cut.and_then(|place| row.get(place)) {
            Some(&next) => {
                let end = self.at_limit(next, top);
                ended(script, end, limit)
            }
            None => Outcome {
                value: number(top),
                kind: kind(top),
                ..ended(script, End::Value, script.steps.into())
            },
        }
    }

    #[inline(always)]
    fn push(&mut self, value: u64) {
        self.values.stack[self.height & (MOST_DEPTH - 1)] = value;
        self.height += 1;
    }

    #[inline(always)]
    fn pop(&mut self) -> u64 {
        self.height = self.height.wrapping_sub(1);
        self.values.stack[self.height & (MOST_DEPTH - 1)]
    }

    #[inline(always)]
    fn step(&mut self, operation: u64, top: u64) -> Step {
        match code(operation) {
            operation::LITERAL => {
                self.push(top);
                Ok(operation)
            }
            operation::VARIABLE => {
                self.push(top);
                Ok(self.values.lets[number(operation) as usize & (MOST_DEPTH - 1)])
            }
            operation::LET => {
                self.values.lets[number(operation) as usize & (MOST_DEPTH - 1)] = top;
                Ok(self.pop())
            }
            operation::MALLOC => {
                self.push(top);
                self.malloc(kind(operation) & ((1 << codes::BITS) - 1))
            }
            operation::UNWRAP => Ok(top),
            operation::CAST => {
                let to = kind(operation) & ((1 << codes::BITS) - 1);
                Ok(pack(number(top), to))
            }
            operation::READ => {
                let place = self.place(top)?;
                Ok(pack(self.heap[place] as u32, self.heap[place + 1] as u32))
            }
            operation::ASSIGN => {
                let pointer = self.pop();
                let place = self.place(pointer)?;
                self.heap[place] = number(top).into();
                self.heap[place + 1] = kind(top).into();
                Ok(top)
            }
            operation::SUM => sum(self.pop(), number(top)),
            operation::ADD => sum(top, number(operation)),
            _ => self.field(top, number(operation)),
        }
    }

    /// Where a read or assign goes: the index of the word's value.
    #[inline(always)]
    fn place(&self, pointer: u64) -> Result<usize, End> {
        let (value, kind) = (number(pointer), kind(pointer));
        if codes::is_checked_pointer(kind) {
            if value == 0 {
                return Err(End::Null);
            }
            if codes::tag(kind) == CHECKED_ARRAY && codes::count(kind) == 0 {
                return Err(End::Bounds);
            }
        }
        // Address 0 wraps to an index that no heap has.
        let index = value.wrapping_sub(1) as usize;
        if index >= self.heap.len() / 2 || self.heap[2 * index + 1] == 0 {
            return Err(End::Stuck);
        }
        Ok(2 * index)
    }

    #[inline(always)]
    fn field(&self, pointer: u64, field: u32) -> Step {
        let Some(to) = self.tables.field_address(kind(pointer), field) else {
            return Err(End::Stuck);
        };
        if codes::is_checked_pointer(to) && number(pointer) == 0 {
            return Err(End::Null);
        }
        Ok(pack(number(pointer).wrapping_add(field), to))
    }

    #[inline(never)]
    fn malloc(&mut self, kind: u32) -> Step {
        let size = self.tables.size(kind);
        let Some(address) = self.free.take(size) else {
            return Err(End::Room);
        };
        let from = 2 * (address as usize - 1);
        let words = self.heap[from..from + 2 * size as usize].chunks_exact_mut(2);
        if codes::tag(kind) == CHECKED_STRUCT {
            let fields = self.tables.fields(codes::number(kind));
            for (word, &field) in words.zip(fields) {
                word[0] = 0;
                word[1] = self.tables.kind(field.into()).into();
            }
        } else {
            let element = self.tables.kind(codes::number(kind)).into();
            for word in words {
                word[0] = 0;
                word[1] = element;
            }
        }
        Ok(pack(address, kind))
    }

    /// "More is given exactly if the limit's steps were taken and the state is
    /// neither a value nor stuck nor ended by a halt."
    fn at_limit(&mut self, operation: u64, top: u64) -> End {
        let stuck = match code(operation) {
            operation::READ => self.place(top) == Err(End::Stuck),
            operation::ASSIGN => {
                let pointer = self.pop();
                self.place(pointer) == Err(End::Stuck)
            }
            operation::FIELD => self.field(top, number(operation)) == Err(End::Stuck),
            _ => false,
        };
        if stuck {
            End::Stuck
        } else {
            End::More
        }
    }
}

#[inline(always)]
fn sum(left: u64, right: u32) -> Step {
    let value = number(left).wrapping_add(right);
    let mut to = kind(left);
    if codes::tag(to) == CHECKED_ARRAY {
        if number(left) == 0 {
            return Err(End::Null);
        }
        let count = codes::count(to).saturating_sub(right);
        to = codes::without_count(to) | count << 11;
    }
    Ok(pack(value, to))
}

/// How many steps were taken when the operation at a place ended the run: "A
/// halt is itself a step; being Stuck is not."
fn steps_until(script: &Script, place: usize, end: End) -> u64 {
    script.steps_before(place) + u64::from(end != End::Stuck)
}

/// Steps come in the row's order, so the first unchecked one was taken exactly
/// if so many were; a stuck redex counts as one more.
fn ended(script: &Script, end: End, steps: u64) -> Outcome {
    let reached = steps + u64::from(end == End::Stuck);
    let first = u64::from(script.first_inside);
    Outcome {
        end,
        value: 0,
        kind: INT,
        steps,
        first: if first <= reached { first } else { 0 },
    }
}
