//! Small steps: the redex and what it becomes.

use crate::expr::Expr;
use crate::heap::Heap;
use crate::judge::field_address;
use crate::kind::{Kind, Mode, Target, Value};
use crate::tables::Tables;

/// "Sums of numbers are taken modulo 2^32"
const MODULUS: u64 = 1 << 32;

#[derive(Clone, Copy, Debug, PartialEq, Eq)]
pub enum Halt {
    Null,
    Bounds,
    Room,
}

/// What a redex does. Nothing has happened yet: the words to be written are
/// only named, so that a state can be looked at when no step is left.
#[derive(Clone, Debug, PartialEq, Eq)]
pub enum Next {
    Becomes(Expr, Vec<(u64, Value)>),
    Halts(Halt),
    Stuck,
}

/// The part of an expression, not a value, that steps next: "Leftmost part
/// first, nothing under a let's body." Also whether it "lies inside an
/// unchecked block"; `inside` says so of the whole. A block around a value is
/// itself the redex and so not inside itself: "unwrapping a block in checked
/// code is a checked step."
pub fn redex(expr: &mut Expr, inside: bool) -> (&mut Expr, bool) {
    if is_redex(expr) {
        return (expr, inside);
    }
    match expr {
        Expr::Unchecked(part) => redex(part, true),
        Expr::Let(part, _) | Expr::Cast(_, part) => redex(part, inside),
        Expr::Read(part) | Expr::Field(_, part) => redex(part, inside),
        Expr::Assign(left, right) | Expr::Sum(left, right) => {
            if left.is_value() {
                redex(right, inside)
            } else {
                redex(left, inside)
            }
        }
        Expr::Literal(_) | Expr::Variable(_) | Expr::Malloc(_) => (expr, inside),
    }
}

/// Whether the parts that have to be values first are values.
fn is_redex(expr: &Expr) -> bool {
    match expr {
        Expr::Let(part, _) | Expr::Unchecked(part) | Expr::Cast(_, part) => part.is_value(),
        Expr::Read(part) | Expr::Field(_, part) => part.is_value(),
        Expr::Assign(left, right) | Expr::Sum(left, right) => left.is_value() && right.is_value(),
        Expr::Literal(_) | Expr::Variable(_) | Expr::Malloc(_) => true,
    }
}

/// What a redex does over a heap.
pub fn next(redex: &Expr, tables: &Tables, heap: &Heap) -> Next {
    match redex {
        Expr::Let(bound, body) => with_value(bound, |value| becomes(replace(body, 0, value))),
        Expr::Malloc(target) => malloc(*target, tables, heap),
        // "unchecked of a value is the value."
        Expr::Unchecked(part) => with_value(part, value_only),
        // "Cast: the type changes only."
        Expr::Cast(kind, part) => with_value(part, |value| {
            value_only(Value {
                number: value.number,
                kind: *kind,
            })
        }),
        Expr::Read(part) => with_value(part, |pointer| read(pointer, heap)),
        Expr::Assign(part, value) => with_value(part, |pointer| {
            with_value(value, |value| assign(pointer, value, heap))
        }),
        Expr::Sum(left, right) => {
            with_value(left, |left| with_value(right, |right| sum(left, right)))
        }
        Expr::Field(field, part) => with_value(part, |pointer| address(pointer, *field, tables)),
        // A literal is no redex; a variable without a let doesn't pass the loader.
        Expr::Literal(_) | Expr::Variable(_) => Next::Stuck,
    }
}

/// Goes on with a part's value; a redex's parts are values.
fn with_value(part: &Expr, then: impl FnOnce(Value) -> Next) -> Next {
    match part {
        Expr::Literal(value) => then(*value),
        _ => Next::Stuck,
    }
}

fn becomes(expr: Expr) -> Next {
    Next::Becomes(expr, Vec::new())
}

fn value_only(value: Value) -> Next {
    becomes(Expr::Literal(value))
}

/// "Let: each use of the variable becomes the value." `out` is the variable's
/// number at this place: one more inside each further let's body.
fn replace(expr: &Expr, out: u64, value: Value) -> Expr {
    let part = |part: &Expr| Box::new(replace(part, out, value));
    match expr {
        Expr::Literal(literal) => Expr::Literal(*literal),
        Expr::Variable(number) if *number == out => Expr::Literal(value),
        // A let further out: one let fewer lies between. (A let that steps is
        // never under another's body, so this doesn't come up in a run.)
        Expr::Variable(number) if *number > out => Expr::Variable(*number - 1),
        Expr::Variable(number) => Expr::Variable(*number),
        Expr::Let(bound, body) => Expr::Let(part(bound), Box::new(replace(body, out + 1, value))),
        Expr::Malloc(target) => Expr::Malloc(*target),
        Expr::Unchecked(inner) => Expr::Unchecked(part(inner)),
        Expr::Cast(kind, inner) => Expr::Cast(*kind, part(inner)),
        Expr::Read(inner) => Expr::Read(part(inner)),
        Expr::Assign(left, right) => Expr::Assign(part(left), part(right)),
        Expr::Sum(left, right) => Expr::Sum(part(left), part(right)),
        Expr::Field(field, inner) => Expr::Field(*field, part(inner)),
    }
}

/// "the result has the left side's type. If that is a checked array pointer of
/// n: value 0 halts with Null; otherwise n falls by the right side, not below
/// 0."
fn sum(left: Value, right: Value) -> Next {
    let number = (left.number + right.number) % MODULUS;
    let kind = match left.kind {
        Kind::Array {
            mode: Mode::Checked,
            count,
            of,
        } => {
            if left.number == 0 {
                return Next::Halts(Halt::Null);
            }
            Kind::Array {
                mode: Mode::Checked,
                count: fallen(count, right.number),
                of,
            }
        }
        other => other,
    };
    value_only(Value { number, kind })
}

fn fallen(count: u16, by: u64) -> u16 {
    match u16::try_from(by) {
        Ok(by) => count.saturating_sub(by),
        Err(_) => 0,
    }
}

/// "a checked pointer with v = 0 halts with Null; then a checked pointer to an
/// array of 0 halts with Bounds"
fn barred(pointer: Value) -> Option<Halt> {
    if !pointer.kind.is_checked_pointer() {
        return None;
    }
    if pointer.number == 0 {
        return Some(Halt::Null);
    }
    match pointer.kind {
        Kind::Array { count: 0, .. } => Some(Halt::Bounds),
        _ => None,
    }
}

/// "then v undefined in the heap is Stuck; otherwise the word is read"
fn read(pointer: Value, heap: &Heap) -> Next {
    if let Some(halt) = barred(pointer) {
        return Next::Halts(halt);
    }
    match heap.get(pointer.number) {
        Some(word) => value_only(word),
        None => Next::Stuck,
    }
}

/// "or replaced by the value with the value's type, which is the result"
fn assign(pointer: Value, value: Value, heap: &Heap) -> Next {
    if let Some(halt) = barred(pointer) {
        return Next::Halts(halt);
    }
    match heap.get(pointer.number) {
        Some(_) => Next::Becomes(Expr::Literal(value), vec![(pointer.number, value)]),
        None => Next::Stuck,
    }
}

/// "Field address: the value plus the field number, modulo 2^32 [...] No struct
/// pointer, or no such field: Stuck. Otherwise a checked pointer of 0 halts with
/// Null."
fn address(pointer: Value, field: u64, tables: &Tables) -> Next {
    let Some(kind) = field_address(tables, pointer.kind, field) else {
        return Next::Stuck;
    };
    if pointer.kind.is_checked_pointer() && pointer.number == 0 {
        return Next::Halts(Halt::Null);
    }
    let number = (pointer.number + field) % MODULUS;
    value_only(Value { number, kind })
}

/// "malloc of k words: the lowest run of k consecutive undefined addresses
/// within 1 to W becomes k zeros of the target's types. Room is given exactly if
/// no such run exists."
fn malloc(target: Target, tables: &Tables, heap: &Heap) -> Next {
    let Some(start) = heap.free_run(tables.size(target)) else {
        return Next::Halts(Halt::Room);
    };
    let pointer = Value {
        number: start,
        kind: Kind::pointer(Mode::Checked, target),
    };
    let kinds = tables.words(target).into_iter();
    let zeros = kinds.map(|kind| Value { number: 0, kind });
    Next::Becomes(Expr::Literal(pointer), (start..).zip(zeros).collect())
}
