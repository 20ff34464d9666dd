//! Every end, limits, and the first unchecked step.

mod common;
use common::*;
use second::{answer, line, Answer, End};

/// Types: 1 c.word.0, 2 u.word.0, 3 c.array.0.0. Word 1 holds the int 7.
fn over(expr: Bytes) -> Bytes {
    let types = [c(to_word(0)), u(to_word(0)), c(to_array(0, 0))];
    image(&[], &types, &[(1, 7, 0)], expr)
}

fn with(expr: Bytes, limit: u64) -> Answer {
    ask_limit(&over(expr), limit)
}

/// The answers for the limits 0, 1, 2 and so on.
fn each(expr: Bytes, expected: &[Answer]) {
    for (limit, expected) in expected.iter().enumerate() {
        assert_eq!(with(expr.clone(), limit as u64), *expected, "limit {limit}");
    }
    let last = expected[expected.len() - 1];
    assert_eq!(with(expr.clone(), 100_000), last);
    assert_eq!(with(expr, u64::MAX), last);
}

#[test]
fn a_literal_takes_no_step() {
    each(int(5), &[value(5, INT, 0, 0)]);
    each(lit(9, 2), &[value(9, word(U, 0), 0, 0)]);
}

#[test]
fn a_value_is_reached_with_the_last_step() {
    each(
        sum(int(1), int(1)),
        &[ran(End::More, 0, 0), value(2, INT, 1, 0)],
    );
    each(
        let_in(int(1), sum(var(0), var(0))),
        &[
            ran(End::More, 0, 0),
            ran(End::More, 1, 0),
            value(2, INT, 2, 0),
        ],
    );
}

#[test]
fn halts_are_steps() {
    each(
        read(lit(0, 1)),
        &[ran(End::More, 0, 0), ran(End::Null, 1, 0)],
    );
    each(
        read(lit(5, 3)),
        &[ran(End::More, 0, 0), ran(End::Bounds, 1, 0)],
    );
    each(
        malloc(to_array(16, 0)),
        &[ran(End::More, 0, 0), ran(End::Room, 1, 0)],
    );
    // malloc, read (a null pointer), read: Null is the third step.
    each(
        read(read(malloc(to_word(1)))),
        &[
            ran(End::More, 0, 0),
            ran(End::More, 1, 0),
            ran(End::More, 2, 0),
            ran(End::Null, 3, 0),
        ],
    );
}

#[test]
fn being_stuck_is_no_step() {
    each(unchecked(read(lit(9, 2))), &[ran(End::Stuck, 0, 1)]);
    each(
        unchecked(read(cast(2, int(9)))),
        &[ran(End::More, 0, 0), ran(End::Stuck, 1, 1)],
    );
}

#[test]
fn stuck_outside_a_block() {
    // P12: cast (unchecked), unwrap, let, then stuck in checked code.
    each(
        let_in(unchecked(cast(1, int(9))), read(var(0))),
        &[
            ran(End::More, 0, 0),
            ran(End::More, 1, 1),
            ran(End::More, 2, 1),
            ran(End::Stuck, 3, 1),
        ],
    );
}

#[test]
fn stuck_inside_a_block_counts_as_the_next_step() {
    each(
        let_in(int(9), unchecked(read(lit(9, 2)))),
        &[ran(End::More, 0, 0), ran(End::Stuck, 1, 2)],
    );
    // Not if an unchecked step was before.
    let expr = let_in(unchecked(cast(0, int(9))), unchecked(read(lit(9, 2))));
    assert_eq!(with(expr, 100), ran(End::Stuck, 3, 1));
}

#[test]
fn unwrapping() {
    // In checked code a checked step.
    each(
        unchecked(int(5)),
        &[ran(End::More, 0, 0), value(5, INT, 1, 0)],
    );
    // Inside a block an unchecked one.
    each(
        unchecked(unchecked(int(5))),
        &[
            ran(End::More, 0, 0),
            ran(End::More, 1, 1),
            value(5, INT, 2, 1),
        ],
    );
    each(
        sum(int(1), unchecked(int(5))),
        &[
            ran(End::More, 0, 0),
            ran(End::More, 1, 0),
            value(6, INT, 2, 0),
        ],
    );
}

#[test]
fn every_redex_inside_a_block_is_unchecked() {
    for (expr, answer) in [
        (unchecked(let_in(int(1), var(0))), value(1, INT, 2, 1)),
        (unchecked(malloc(to_word(0))), value(2, word(C, 0), 2, 1)),
        (unchecked(cast(0, int(1))), value(1, INT, 2, 1)),
        (unchecked(read(lit(1, 1))), value(7, INT, 2, 1)),
        (unchecked(assign(lit(1, 1), int(3))), value(3, INT, 2, 1)),
        (unchecked(sum(int(1), int(3))), value(4, INT, 2, 1)),
        (unchecked(read(lit(0, 1))), ran(End::Null, 1, 1)),
        (unchecked(read(lit(1, 3))), ran(End::Bounds, 1, 1)),
        (unchecked(malloc(to_array(16, 0))), ran(End::Room, 1, 1)),
    ] {
        assert_eq!(with(expr, 100), answer);
    }
}

#[test]
fn the_first_unchecked_step_is_kept() {
    // let (1), sum (2, unchecked), unwrap (3).
    each(
        let_in(int(1), unchecked(sum(var(0), int(1)))),
        &[
            ran(End::More, 0, 0),
            ran(End::More, 1, 0),
            ran(End::More, 2, 2),
            value(2, INT, 3, 2),
        ],
    );
    // Steps 3 and 6 are unchecked.
    let block = || unchecked(sum(int(1), int(1)));
    let expr = let_in(sum(int(0), int(0)), let_in(block(), block()));
    assert_eq!(with(expr, 100), value(2, INT, 7, 3));
}

#[test]
fn a_block_around_only_a_part() {
    // The sum in the block is unchecked, the one around isn't.
    let expr = sum(sum(int(1), int(2)), unchecked(sum(int(3), int(4))));
    each(
        expr,
        &[
            ran(End::More, 0, 0),
            ran(End::More, 1, 0),
            ran(End::More, 2, 2),
            ran(End::More, 3, 2),
            value(10, INT, 4, 2),
        ],
    );
}

#[test]
fn the_heap_is_as_after_the_steps_taken() {
    // Steps: malloc (word 2), let, assign 5 there, let, read.
    let expr = let_in(
        malloc(to_word(0)),
        let_in(assign(var(0), int(5)), read(var(1))),
    );
    let image = over(expr);
    let seven = Some((7, INT));
    for (limit, word) in [
        (0, None),
        (1, Some((0, INT))),
        (2, Some((0, INT))),
        (3, Some((5, INT))),
        (4, Some((5, INT))),
        (5, Some((5, INT))),
    ] {
        let (_, heap) = ask_heap(&image, 3, limit);
        assert_eq!(heap, [seven, word, None], "limit {limit}");
    }
}

#[test]
fn a_refusal_gives_no_heap() {
    assert_eq!(answer(&hex("01"), 16, 100).1, None);
    assert_eq!(answer(&over(read(int(1))), 16, 100).1, None);
    assert_eq!(answer(&over(lit(2, 1)), 16, 100).1, None);
}

#[test]
fn the_heap_s_length_is_w() {
    for words in [1, 2, 16, 1_024, 4_096] {
        let (_, heap) = answer(&over(int(5)), words, 0);
        assert_eq!(heap.unwrap().len(), words);
    }
    assert_eq!(answer(&bare(int(5)), 0, 0).1, Some(vec![]));
}

#[test]
fn lines() {
    let l = |expr: Bytes, limit| line(&with(expr, limit));
    assert_eq!(l(int(5), 0), "value 5 int steps 0 unchecked 0");
    assert_eq!(l(lit(9, 2), 0), "value 9 u.word.0 steps 0 unchecked 0");
    assert_eq!(l(lit(9, 3), 0), "value 9 c.array.0.0 steps 0 unchecked 0");
    assert_eq!(
        l(malloc(to_array(3, 1)), 9),
        "value 2 c.array.3.1 steps 1 unchecked 0"
    );
    assert_eq!(
        l(malloc(to_word(3)), 9),
        "value 2 c.word.3 steps 1 unchecked 0"
    );
    assert_eq!(l(read(lit(0, 1)), 9), "null 0 int steps 1 unchecked 0");
    assert_eq!(l(read(lit(5, 3)), 9), "bounds 0 int steps 1 unchecked 0");
    assert_eq!(
        l(malloc(to_array(16, 0)), 9),
        "room 0 int steps 1 unchecked 0"
    );
    assert_eq!(
        l(unchecked(read(lit(9, 2))), 9),
        "stuck 0 int steps 0 unchecked 1"
    );
    assert_eq!(l(unchecked(int(9)), 0), "more 0 int steps 0 unchecked 0");
    assert_eq!(l(read(int(9)), 0), "refused 9 at 0");
    assert_eq!(line(&refused(4, 16_000)), "refused 4 at 16000");
    assert_eq!(
        line(&value(4_294_967_295, strukt(U, 31), 2_047, 2_046)),
        "value 4294967295 u.struct.31 steps 2047 unchecked 2046"
    );
    assert_eq!(
        line(&value(1, array(U, 65_535, 255), 0, 0)),
        "value 1 u.array.65535.255 steps 0 unchecked 0"
    );
}
