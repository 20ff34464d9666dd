//! Fault 10: the literal rule.

mod common;
use common::*;
use second::{stays_typed, Answer};

/// Types: 1 c.word.0, 2 u.word.0, 3 c.array.3.0, 4 c.struct.0, 5 c.word.1,
/// 6 c.array.2.4, 7 c.array.0.4. Struct 0: int, c.struct.0.
fn over(cells: &[(u64, u64, u64)], expr: Bytes) -> Answer {
    let types = [
        c(to_word(0)),
        u(to_word(0)),
        c(to_array(3, 0)),
        c(to_struct(0)),
        c(to_word(1)),
        c(to_array(2, 4)),
        c(to_array(0, 4)),
    ];
    let image = image(&[vec![0, 4]], &types, cells, expr);
    assert_eq!(stays_typed(&image, 16, 1_000), Ok(()));
    ask(&image)
}

fn fine(cells: &[(u64, u64, u64)], number: u64, kind: u64) -> bool {
    match over(cells, lit(number, kind)) {
        Answer::Ran(outcome) => outcome.steps == 0,
        answer => {
            assert_eq!(answer, refused(10, 0));
            false
        }
    }
}

#[test]
fn plain_literals() {
    // Over an empty heap: int, unchecked, array of 0, or the value 0.
    for number in [0, 1, 4_294_967_295] {
        assert!(fine(&[], number, 0));
        assert!(fine(&[], number, 2));
        assert!(fine(&[], number, 7));
    }
    for kind in 0..=7 {
        assert!(fine(&[], 0, kind));
    }
    for kind in [1, 3, 4, 5, 6] {
        assert!(!fine(&[], 1, kind));
        assert!(!fine(&[], 16, kind));
        assert!(!fine(&[], 17, kind));
        assert!(!fine(&[], 4_294_967_295, kind));
    }
}

#[test]
fn a_word() {
    assert!(fine(&[(3, 7, 0)], 3, 1));
    assert!(!fine(&[(3, 7, 0)], 2, 1));
    assert!(!fine(&[(3, 7, 0)], 4, 1));
    // Exactly the type, whatever the value.
    assert!(!fine(&[(3, 0, 2)], 3, 1));
    assert!(!fine(&[(3, 0, 1)], 3, 1));
    assert!(fine(&[(3, 0, 1)], 3, 5));
    assert!(!fine(&[(3, 0, 2)], 3, 5));
    assert!(!fine(&[(3, 0, 0)], 3, 5));
}

#[test]
fn slip_an_array_of_3_over_2_words() {
    assert!(fine(&[(1, 7, 0), (1, 7, 0), (1, 7, 0)], 1, 3));
    assert!(!fine(&[(1, 7, 0), (1, 7, 0)], 1, 3));
    assert!(!fine(&[(1, 7, 0), (1, 7, 0), (2, 7, 0)], 1, 3));
    assert!(!fine(&[(1, 7, 0), (2, 7, 0), (1, 7, 0)], 1, 3));
    assert!(!fine(&[(2, 7, 0), (1, 7, 0), (1, 7, 0)], 1, 3));
    assert!(fine(&[(14, 7, 0), (1, 7, 0), (1, 7, 0)], 14, 3));
    assert!(!fine(&[(15, 7, 0), (1, 7, 0)], 15, 3));
    // The last word of another type.
    assert!(!fine(&[(1, 7, 0), (1, 7, 0), (1, 7, 2)], 1, 3));
    assert!(!fine(&[(1, 7, 0), (1, 7, 2), (1, 7, 0)], 1, 3));
}

#[test]
fn slip_a_cyclic_list() {
    // One node, two nodes, and an array in the cycle.
    assert!(fine(&[(1, 0, 0), (1, 1, 4)], 1, 4));
    let two = [(1, 0, 0), (1, 3, 4), (1, 0, 0), (1, 1, 4)];
    assert!(fine(&two, 1, 4));
    assert!(fine(&two, 3, 4));
    // Words 2 and 3 hold the same pointer: an array of 2 structs' pointers.
    let both = [(1, 0, 0), (1, 1, 4), (1, 1, 4)];
    assert!(fine(&both, 2, 6));
    assert!(!fine(&both, 1, 6));
    assert!(!fine(&both, 3, 6));
}

#[test]
fn a_bad_word_in_a_list() {
    // The second node's next points to no node.
    let cells = [(1, 0, 0), (1, 3, 4), (1, 0, 0), (1, 5, 4)];
    assert!(!fine(&cells, 1, 4));
    assert!(!fine(&cells, 3, 4));
    assert!(fine(&cells, 1, 1));
    // The cycle leads through the literal's second word to a bad third.
    let cells = [(1, 2, 4), (1, 0, 0), (1, 2, 4), (1, 9, 4)];
    assert!(fine(&cells, 2, 4));
    // Array at 3: word 3 is fine (struct at 2), word 4 leads to 9.
    assert!(!fine(&cells, 3, 6));
}

#[test]
fn slip_a_bad_word_that_no_checked_pointer_reaches() {
    let cells = [(1, 7, 0), (1, 99, 4), (1, 1, 1)];
    assert!(fine(&cells, 1, 1));
    assert!(fine(&cells, 3, 5));
    assert!(fine(&cells, 2, 2));
    // Through an unchecked pointer nothing is reached.
    assert!(fine(&[(1, 2, 2), (1, 99, 4)], 1, 2));
    // An array of 0 covers none.
    assert!(fine(&cells, 2, 7));
}

#[test]
fn the_same_address_with_two_types() {
    // Word 1 is an int and the beginning of a struct: both well typed.
    let cells = [(1, 0, 0), (1, 1, 4), (1, 1, 1), (1, 3, 5)];
    assert!(fine(&cells, 1, 4));
    assert!(fine(&cells, 1, 1));
    assert!(fine(&cells, 3, 5));
    // That one type is in the scope doesn't help another: the struct at 1 has
    // next 2 as a struct, whose first word is no int.
    assert!(!fine(&[(1, 0, 0), (1, 2, 4), (1, 2, 4)], 1, 4));
}

#[test]
fn each_literal_of_the_expression_is_judged() {
    let cells = [(1, 0, 0), (1, 1, 4)];
    let good = || lit(1, 4);
    // The same literal twice, then a bad one.
    assert_eq!(over(&cells, let_in(good(), let_in(good(), good()))), {
        value(1, strukt(C, 0), 2, 0)
    });
    assert_eq!(
        over(&cells, let_in(good(), let_in(good(), lit(2, 4)))),
        refused(10, 4)
    );
    assert_eq!(
        over(&cells, let_in(lit(2, 4), let_in(good(), good()))),
        refused(10, 1)
    );
    // In unchecked code too.
    assert_eq!(over(&cells, unchecked(lit(2, 4))), refused(10, 1));
    assert_eq!(
        over(&cells, unchecked(let_in(int(1), lit(2, 4)))),
        refused(10, 3)
    );
}

#[test]
fn the_heap_before_the_first_step_counts() {
    // The malloc will define word 1, but not before typing.
    assert_eq!(
        over(&[], let_in(malloc(to_word(0)), lit(1, 1))),
        refused(10, 2)
    );
}
