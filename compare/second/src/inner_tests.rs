//! Tests of pieces that the public interface hides: each quick way against the
//! plain rule it stands for.

use crate::expr::Expr;
use crate::heap::Heap;
use crate::kind::{Kind, Mode, Target, Value};
use crate::literal::well_typed;
use crate::run::{End, Outcome};
use crate::step::redex;
use crate::tables::Tables;
use crate::typed::{end_holds, reached_hold};
use std::collections::BTreeSet;

struct Dice(u64);

impl Dice {
    fn below(&mut self, bound: u64) -> u64 {
        self.0 ^= self.0 << 13;
        self.0 ^= self.0 >> 7;
        self.0 ^= self.0 << 17;
        self.0 % bound
    }
}

/// The scope rule of 01 word by word, without any shortcut.
fn by_scope(literal: Value, tables: &Tables, heap: &Heap, scope: &mut Vec<Value>) -> bool {
    let (mode, target) = match literal.kind.split() {
        None => return true,
        Some(parts) => parts,
    };
    if mode == Mode::Unchecked || literal.number == 0 {
        return true;
    }
    if matches!(target, Target::Array { count: 0, .. }) {
        return true;
    }
    if scope.contains(&literal) {
        return true;
    }
    scope.push(literal);
    let mut fine = true;
    for (address, kind) in (literal.number..).zip(tables.words(target)) {
        fine = fine
            && match heap.get(address) {
                Some(word) => word.kind == kind && by_scope(word, tables, heap, scope),
                None => false,
            };
    }
    scope.pop();
    fine
}

fn some_tables() -> Tables {
    let c = Mode::Checked;
    Tables {
        structs: vec![vec![1, 1], vec![0, 2], vec![1, 3]],
        types: vec![
            Kind::Int,
            Kind::Struct { mode: c, of: 0 },
            Kind::Struct { mode: c, of: 1 },
            Kind::Array {
                mode: c,
                count: 2,
                of: 1,
            },
            Kind::Word { mode: c, of: 1 },
            Kind::Struct {
                mode: Mode::Unchecked,
                of: 0,
            },
            Kind::Array {
                mode: c,
                count: 0,
                of: 1,
            },
            Kind::Struct { mode: c, of: 2 },
        ],
    }
}

/// A heap of 7 words, mostly defined and mostly pointers to pairs.
fn some_heap(dice: &mut Dice, tables: &Tables) -> Heap {
    let mut heap = Heap::new(7);
    let dense = dice.below(3) != 0;
    for address in 1..=7 {
        if !dense && dice.below(4) == 0 {
            continue;
        }
        let of = match dice.below(4) {
            0 => dice.below(8),
            _ => 1,
        };
        let kind = tables.kind(of as u8);
        heap.set(
            address,
            Value {
                number: dice.below(8),
                kind,
            },
        );
    }
    heap
}

#[test]
fn the_worklist_says_what_the_scope_rule_says() {
    let tables = some_tables();
    let mut dice = Dice(0x5EED_0001);
    let (mut yes, mut no) = (0, 0);
    for _ in 0..4_000 {
        let heap = some_heap(&mut dice, &tables);
        // One set for many literals, as long as they are well typed.
        let mut seen = BTreeSet::new();
        for number in 0..=8 {
            for &kind in &tables.types {
                let literal = Value { number, kind };
                let plain = by_scope(literal, &tables, &heap, &mut Vec::new());
                let quick = well_typed(literal, &tables, &heap, &mut BTreeSet::new());
                assert_eq!(quick, plain, "{literal:?} in {heap:?}");
                if plain {
                    assert!(well_typed(literal, &tables, &heap, &mut seen));
                    if kind.is_checked_pointer() && number != 0 {
                        yes += 1;
                    }
                } else {
                    assert!(!well_typed(literal, &tables, &heap, &mut seen.clone()));
                    no += 1;
                }
            }
        }
    }
    assert!(yes > 10_000 && no > 10_000, "{yes} {no}");
}

#[test]
fn the_walk_over_the_final_heap_says_the_same() {
    let tables = some_tables();
    let mut dice = Dice(0x5EED_0002);
    for _ in 0..2_000 {
        let heap = some_heap(&mut dice, &tables);
        for number in 0..=8 {
            for &kind in &tables.types {
                let value = Value { number, kind };
                let plain = by_scope(value, &tables, &heap, &mut Vec::new());
                let walk = reached_hold(value, &tables, &heap.list());
                assert_eq!(walk.is_ok(), plain, "{value:?} in {heap:?}: {walk:?}");
            }
        }
    }
}

/// "the lowest run of k consecutive undefined addresses within 1 to W", tried
/// from 1 on.
fn lowest_run(heap: &Heap, words: u64, k: u64) -> Option<u64> {
    (1..=words).find(|&start| {
        (start..start + k).all(|address| address <= words && heap.get(address).is_none())
    })
}

#[test]
fn the_free_run_is_the_lowest_run() {
    let mut dice = Dice(0x5EED_0003);
    for _ in 0..3_000 {
        let words = dice.below(13);
        let full = dice.below(5);
        let mut heap = Heap::new(words as usize);
        for address in 1..=words {
            if dice.below(5) < full {
                let kind = Kind::Int;
                heap.set(address, Value { number: 1, kind });
            }
        }
        for k in 1..=words + 2 {
            assert_eq!(
                heap.free_run(k),
                lowest_run(&heap, words, k),
                "{k} in {heap:?}"
            );
        }
    }
}

#[test]
fn a_run_of_defined_words() {
    let mut heap = Heap::new(6);
    for address in [1, 2, 4, 5, 6] {
        heap.set(
            address,
            Value {
                number: address,
                kind: Kind::Int,
            },
        );
    }
    let numbers = |address, count| {
        let run = heap.run(address, count);
        run.map(|values| values.iter().map(|value| value.number).collect::<Vec<_>>())
    };
    assert_eq!(numbers(1, 2), Some(vec![1, 2]));
    assert_eq!(numbers(1, 3), None);
    assert_eq!(numbers(3, 1), None);
    assert_eq!(numbers(3, 2), None);
    assert_eq!(numbers(4, 3), Some(vec![4, 5, 6]));
    assert_eq!(numbers(4, 4), None);
    assert_eq!(numbers(0, 1), None);
    assert_eq!(numbers(4_294_967_295, 65_535), None);
}

fn literal(number: u64) -> Box<Expr> {
    Box::new(Expr::Literal(Value {
        number,
        kind: Kind::Int,
    }))
}

#[test]
fn the_redex_is_leftmost_and_not_under_a_body() {
    let sum = |left, right| Box::new(Expr::Sum(left, right));
    let mut expr = Expr::Let(
        sum(literal(1), sum(literal(2), literal(3))),
        sum(literal(4), literal(5)),
    );
    let (found, inside) = redex(&mut expr, false);
    assert_eq!(*found, *sum(literal(2), literal(3)));
    assert!(!inside);
    let mut expr = Expr::Let(literal(1), sum(literal(4), literal(5)));
    let whole = expr.clone();
    assert_eq!(*redex(&mut expr, false).0, whole);
    let mut expr = Expr::Assign(sum(literal(1), literal(2)), sum(literal(3), literal(4)));
    assert_eq!(*redex(&mut expr, false).0, *sum(literal(1), literal(2)));
    let mut expr = Expr::Assign(
        literal(1),
        Box::new(Expr::Unchecked(sum(literal(3), literal(4)))),
    );
    let (found, inside) = redex(&mut expr, false);
    assert_eq!(*found, *sum(literal(3), literal(4)));
    assert!(inside);
}

#[test]
fn the_check_of_demand_3_finds_what_is_wrong() {
    let tables = some_tables();
    let pair = tables.kind(1);
    let word = |number| Some(Value { number, kind: pair });
    let ok = |end, first, heap: &[Option<Value>]| {
        let steps = 3;
        end_holds(pair, Outcome { end, steps, first }, &tables, heap).is_ok()
    };
    let value = |value, kind| End::Value { value, kind };
    let good = [word(1), word(0), None];
    assert!(ok(value(1, pair), 0, &good));
    assert!(ok(value(0, pair), 0, &good));
    // Another type, Stuck, a pair over one word, a pair that leads to one.
    assert!(!ok(value(1, Kind::Int), 0, &good));
    assert!(!ok(End::Stuck, 0, &good));
    assert!(!ok(value(2, pair), 0, &good));
    assert!(!ok(value(1, pair), 0, &[word(1), word(2), None]));
    assert!(!ok(value(4, pair), 0, &good));
    // With an unchecked step nothing is claimed.
    assert!(ok(value(1, Kind::Int), 1, &good));
    assert!(ok(End::Stuck, 2, &good));
    assert!(ok(value(2, pair), 3, &good));
    // Of the other ends nothing is claimed.
    for end in [End::Null, End::Bounds, End::Room, End::More] {
        assert!(ok(end, 0, &good));
    }
}
