//! A run: steps until an end.

use crate::expr::Expr;
use crate::image::Program;
use crate::kind::Kind;
use crate::step::{next, redex, Halt, Next};

/// "Where no limit is named it is 100,000."
pub const DEFAULT_LIMIT: u64 = 100_000;

/// "Ends: Value, Null, Bounds, Room, Stuck, More."
#[derive(PartialEq, Eq, Clone, Copy, Debug)]
pub enum End {
    Value { value: u64, kind: Kind },
    Null,
    Bounds,
    Room,
    Stuck,
    More,
}

/// End, steps taken, and "the number of the first unchecked step, 0 if none".
#[derive(PartialEq, Eq, Clone, Copy, Debug)]
pub struct Outcome {
    pub end: End,
    pub steps: u64,
    pub first: u64,
}

/// Runs a program whose types have been judged. Its expression and its heap are
/// then as after the steps taken.
pub fn run(program: &mut Program, limit: u64) -> Outcome {
    let mut steps = 0;
    let mut first = 0;
    let end = loop {
        if let Expr::Literal(value) = &program.expr {
            break End::Value {
                value: value.number,
                kind: value.kind,
            };
        }
        let (place, inside) = redex(&mut program.expr, false);
        let what = next(place, &program.tables, &program.heap);
        // "More is given exactly if the limit's steps were taken and the state
        // is neither a value nor stuck nor ended by a halt."
        if steps == limit && what != Next::Stuck {
            break End::More;
        }
        // "a redex stuck inside an unchecked block counts as step 'steps + 1'"
        if inside && first == 0 {
            first = steps + 1;
        }
        match what {
            // "A halt is itself a step; being Stuck is not."
            Next::Stuck => break End::Stuck,
            Next::Halts(halt) => {
                steps += 1;
                break halted(halt);
            }
            Next::Becomes(expr, writes) => {
                steps += 1;
                *place = expr;
                for (address, value) in writes {
                    program.heap.set(address, value);
                }
            }
        }
    };
    Outcome { end, steps, first }
}

fn halted(halt: Halt) -> End {
    match halt {
        Halt::Null => End::Null,
        Halt::Bounds => End::Bounds,
        Halt::Room => End::Room,
    }
}
