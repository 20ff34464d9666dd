//! Fault 9 and the typing rules, each from both sides.

mod common;
use common::*;
use second::{Answer, End};

// The types used here.
const CW: u64 = 1; // c.word.0
const UW: u64 = 2; // u.word.0
const CA: u64 = 3; // c.array.2.0
const UA: u64 = 4; // u.array.2.0
const CS: u64 = 5; // c.struct.0
const US: u64 = 6; // u.struct.0
const CA0: u64 = 7; // c.array.0.0
const CWW: u64 = 8; // c.word.1
const UWW: u64 = 9; // u.word.1

/// Struct 0: int, c.struct.0, u.word.0. Words 1 to 3 hold one such struct,
/// words 4 and 5 the ints 7 and 8, word 6 a c.word.0 to word 4.
fn over(expr: Bytes) -> Bytes {
    let types = [
        c(to_word(0)),
        u(to_word(0)),
        c(to_array(2, 0)),
        u(to_array(2, 0)),
        c(to_struct(0)),
        u(to_struct(0)),
        c(to_array(0, 0)),
        c(to_word(1)),
        u(to_word(1)),
    ];
    let cells = [
        (1, 0, 0),
        (1, 0, CS),
        (1, 9, UW),
        (1, 7, 0),
        (1, 8, 0),
        (1, 4, CW),
    ];
    image(&[vec![0, CS, UW]], &types, &cells, expr)
}

fn t(expr: Bytes) -> Answer {
    ask(&over(expr))
}

#[test]
fn literals_have_their_type() {
    assert_eq!(t(lit(1, CW)), value(1, word(C, 0), 0, 0));
    assert_eq!(t(lit(1, UW)), value(1, word(U, 0), 0, 0));
    assert_eq!(t(lit(4, CA)), value(4, array(C, 2, 0), 0, 0));
    assert_eq!(t(lit(4, UA)), value(4, array(U, 2, 0), 0, 0));
    assert_eq!(t(lit(1, CS)), value(1, strukt(C, 0), 0, 0));
    assert_eq!(t(lit(1, US)), value(1, strukt(U, 0), 0, 0));
    assert_eq!(t(lit(1, CA0)), value(1, array(C, 0, 0), 0, 0));
    assert_eq!(t(lit(6, CWW)), value(6, word(C, 1), 0, 0));
}

#[test]
fn malloc_of_no_words() {
    assert_eq!(t(malloc(to_array(0, 0))), refused(9, 0));
    assert_eq!(t(unchecked(malloc(to_array(0, 0)))), refused(9, 1));
    assert_eq!(t(malloc(to_array(1, 0))), value(7, array(C, 1, 0), 1, 0));
    assert_eq!(t(malloc(to_word(2))), value(7, word(C, 2), 1, 0));
    assert_eq!(t(malloc(to_struct(0))), value(7, strukt(C, 0), 1, 0));
}

#[test]
fn casts_in_checked_mode() {
    assert_eq!(t(cast(0, int(5))), value(5, INT, 1, 0));
    assert_eq!(t(cast(UW, int(5))), value(5, word(U, 0), 1, 0));
    assert_eq!(t(cast(UA, lit(4, CA))), value(4, array(U, 2, 0), 1, 0));
    assert_eq!(t(cast(US, lit(4, CA))), value(4, strukt(U, 0), 1, 0));
    assert_eq!(t(cast(0, lit(1, CS))), value(1, INT, 1, 0));
    for checked in [CW, CA, CS, CA0, CWW] {
        assert_eq!(t(cast(checked, int(0))), refused(9, 0));
        // Even to the type it has.
        assert_eq!(t(cast(checked, lit(0, checked))), refused(9, 0));
    }
}

#[test]
fn casts_in_unchecked_mode() {
    assert_eq!(t(unchecked(cast(CW, int(5)))), value(5, word(C, 0), 2, 1));
    assert_eq!(t(unchecked(cast(CS, int(5)))), value(5, strukt(C, 0), 2, 1));
    assert_eq!(
        t(unchecked(cast(CA, int(5)))),
        value(5, array(C, 2, 0), 2, 1)
    );
    // A block in the part doesn't help the cast outside.
    assert_eq!(t(cast(CW, unchecked(int(5)))), refused(9, 0));
    // Through a let's bound part and body inside a block.
    assert_eq!(
        t(unchecked(let_in(cast(CW, int(4)), cast(CWW, var(0))))),
        value(4, word(C, 1), 4, 1)
    );
}

#[test]
fn field_addresses() {
    assert_eq!(t(field(0, lit(1, CS))), value(1, word(C, 0), 1, 0));
    assert_eq!(t(field(1, lit(1, CS))), value(2, word(C, 5), 1, 0));
    assert_eq!(t(field(2, lit(1, CS))), value(3, word(C, 2), 1, 0));
    assert_eq!(t(field(3, lit(1, CS))), refused(9, 0));
    assert_eq!(t(field(16, lit(1, CS))), refused(9, 0));
    assert_eq!(t(field(256, lit(1, CS))), refused(9, 0));
    assert_eq!(t(field(4_294_967_295, lit(1, CS))), refused(9, 0));
    for other in [0, CW, UW, UA, CA0] {
        assert_eq!(t(field(0, lit(1, other))), refused(9, 0));
    }
    assert_eq!(t(field(0, lit(4, CA))), refused(9, 0));
}

#[test]
fn field_addresses_keep_the_pointer_s_mode_in_either_code() {
    // "they are two": an unchecked struct pointer in checked code is fine.
    assert_eq!(t(field(1, lit(1, US))), value(2, word(U, 5), 1, 0));
    assert_eq!(
        t(unchecked(field(1, lit(1, CS)))),
        value(2, word(C, 5), 2, 1)
    );
    assert_eq!(
        t(unchecked(field(1, lit(1, US)))),
        value(2, word(U, 5), 2, 1)
    );
}

#[test]
fn plain_sums() {
    assert_eq!(t(sum(int(2), int(3))), value(5, INT, 1, 0));
    assert_eq!(t(sum(lit(4, CA), int(1))), refused(9, 0));
    assert_eq!(t(sum(lit(4, UA), int(1))), refused(9, 0));
    assert_eq!(t(sum(int(1), lit(4, CA))), refused(9, 0));
    assert_eq!(t(sum(int(1), lit(4, UW))), refused(9, 0));
    assert_eq!(t(unchecked(sum(lit(4, UA), int(1)))), refused(9, 1));
    assert_eq!(t(unchecked(sum(lit(4, UW), int(1)))), refused(9, 1));
}

#[test]
fn reads() {
    assert_eq!(t(read(lit(4, CW))), value(7, INT, 1, 0));
    assert_eq!(t(read(lit(4, CA))), value(7, INT, 1, 0));
    assert_eq!(t(read(lit(6, CWW))), value(4, word(C, 0), 1, 0));
    assert_eq!(t(read(read(lit(6, CWW)))), value(7, INT, 2, 0));
    assert_eq!(t(read(int(4))), refused(9, 0));
    assert_eq!(t(read(lit(1, CS))), refused(9, 0));
    assert_eq!(t(read(lit(1, US))), refused(9, 0));
    assert_eq!(t(unchecked(read(lit(1, US)))), refused(9, 1));
    assert_eq!(t(unchecked(read(lit(1, CS)))), refused(9, 1));
    assert_eq!(t(unchecked(read(int(1)))), refused(9, 1));
}

#[test]
fn reads_through_unchecked_pointers() {
    assert_eq!(t(read(lit(4, UW))), refused(9, 0));
    assert_eq!(t(read(lit(4, UA))), refused(9, 0));
    assert_eq!(t(unchecked(read(lit(4, UW)))), value(7, INT, 2, 1));
    assert_eq!(t(unchecked(read(lit(4, UA)))), value(7, INT, 2, 1));
    assert_eq!(t(read(unchecked(lit(4, UW)))), refused(9, 0));
    assert_eq!(t(unchecked(read(lit(4, CW)))), value(7, INT, 2, 1));
    // Behind the block the mode is checked again.
    assert_eq!(
        t(sum(unchecked(read(lit(4, UW))), read(lit(4, UW)))),
        refused(9, 4)
    );
    assert_eq!(
        t(let_in(unchecked(lit(4, UW)), read(var(0)))),
        refused(9, 3)
    );
    assert_eq!(
        t(let_in(lit(4, UW), unchecked(read(var(0))))),
        value(7, INT, 3, 2)
    );
}

#[test]
fn reads_of_sums() {
    assert_eq!(t(read(sum(lit(4, CA), int(1)))), value(8, INT, 2, 0));
    assert_eq!(t(read(sum(lit(4, UA), int(1)))), refused(9, 0));
    assert_eq!(
        t(unchecked(read(sum(lit(4, UA), int(1))))),
        value(8, INT, 3, 1)
    );
    // Neither array pointer with int nor two ints: the sum's own number.
    assert_eq!(t(read(sum(lit(4, CW), int(1)))), refused(9, 1));
    assert_eq!(t(read(sum(lit(1, CS), int(1)))), refused(9, 1));
    assert_eq!(t(read(sum(int(1), lit(4, CA)))), refused(9, 1));
    assert_eq!(t(read(sum(lit(4, CA), lit(4, CA)))), refused(9, 1));
    assert_eq!(t(read(sum(lit(4, CA), lit(4, UW)))), refused(9, 1));
    assert_eq!(t(unchecked(read(sum(lit(4, UW), int(1))))), refused(9, 2));
    // Two ints: the sum is fine, the read isn't.
    assert_eq!(t(read(sum(int(4), int(0)))), refused(9, 0));
    assert_eq!(t(unchecked(read(sum(int(4), int(0))))), refused(9, 1));
}

#[test]
fn only_a_sum_directly_there_is_an_access() {
    assert_eq!(t(read(sum(sum(lit(4, CA), int(0)), int(1)))), refused(9, 2));
    assert_eq!(
        t(read(sum(lit(4, CA), sum(int(0), int(1))))),
        value(8, INT, 3, 0)
    );
    assert_eq!(t(read(unchecked(sum(lit(4, CA), int(1))))), refused(9, 2));
    assert_eq!(
        t(read(let_in(int(1), sum(lit(4, CA), var(0))))),
        refused(9, 3)
    );
    assert_eq!(
        t(read(let_in(sum(lit(4, CA), int(1)), var(0)))),
        refused(9, 2)
    );
    assert_eq!(
        t(unchecked(read(cast(CA, sum(lit(4, CA), int(1)))))),
        refused(9, 3)
    );
    assert_eq!(
        t(assign(lit(4, CW), sum(lit(4, CA), int(1)))),
        refused(9, 2)
    );
    assert_eq!(t(field(0, sum(lit(4, CA), int(1)))), refused(9, 1));
}

#[test]
fn assigns() {
    assert_eq!(t(assign(lit(4, CW), int(3))), value(3, INT, 1, 0));
    assert_eq!(t(assign(lit(4, CA), int(3))), value(3, INT, 1, 0));
    assert_eq!(
        t(assign(sum(lit(4, CA), int(1)), int(3))),
        value(3, INT, 2, 0)
    );
    assert_eq!(
        t(assign(lit(6, CWW), lit(5, CW))),
        value(5, word(C, 0), 1, 0)
    );
    // The result's type is the element's, so it can be read through.
    assert_eq!(
        t(read(assign(lit(6, CWW), lit(5, CW)))),
        value(8, INT, 2, 0)
    );
    assert_eq!(t(assign(int(4), int(3))), refused(9, 0));
    assert_eq!(t(assign(lit(1, CS), int(3))), refused(9, 0));
    assert_eq!(t(assign(lit(1, CS), lit(1, CS))), refused(9, 0));
}

#[test]
fn assigns_take_exactly_the_element_s_type() {
    for other in [CW, UW, CS, US, CA0, UA] {
        assert_eq!(t(assign(lit(4, CW), lit(0, other))), refused(9, 0));
        assert_eq!(
            t(unchecked(assign(lit(4, UW), lit(0, other)))),
            refused(9, 1)
        );
    }
    for other in [0, UW, CWW, CA, CS] {
        assert_eq!(t(assign(lit(6, CWW), lit(0, other))), refused(9, 0));
    }
    // Not even a literal 0, which could be anything.
    assert_eq!(t(assign(lit(6, CWW), int(0))), refused(9, 0));
    assert_eq!(
        t(assign(lit(6, CWW), lit(0, CW))),
        value(0, word(C, 0), 1, 0)
    );
}

#[test]
fn assigns_through_unchecked_pointers() {
    assert_eq!(t(assign(lit(4, UW), int(3))), refused(9, 0));
    assert_eq!(t(assign(sum(lit(4, UA), int(1)), int(3))), refused(9, 0));
    assert_eq!(
        t(unchecked(assign(lit(4, UW), int(3)))),
        value(3, INT, 2, 1)
    );
    assert_eq!(
        t(unchecked(assign(sum(lit(4, UA), int(1)), int(3)))),
        value(3, INT, 3, 1)
    );
    assert_eq!(t(assign(unchecked(lit(4, UW)), int(3))), refused(9, 0));
    assert_eq!(
        t(unchecked(assign(lit(6, UWW), lit(5, CW)))),
        value(5, word(C, 0), 2, 1)
    );
}

#[test]
fn assigns_to_sums() {
    assert_eq!(t(assign(sum(lit(4, CW), int(1)), int(3))), refused(9, 1));
    assert_eq!(t(assign(sum(int(4), lit(4, CA)), int(3))), refused(9, 1));
    assert_eq!(t(assign(sum(int(4), int(1)), int(3))), refused(9, 0));
    // The sum is judged before the value part ...
    assert_eq!(
        t(assign(sum(lit(4, CW), int(1)), lit(9, CW))),
        refused(9, 1)
    );
    assert_eq!(
        t(assign(sum(lit(4, CW), int(1)), read(int(1)))),
        refused(9, 1)
    );
    // ... and the assign behind it: here the value part is node 4.
    assert_eq!(t(assign(sum(int(4), int(1)), lit(9, CW))), refused(10, 4));
    assert_eq!(t(assign(sum(int(4), int(1)), read(int(1)))), refused(9, 4));
    assert_eq!(
        t(assign(sum(lit(4, UA), int(1)), lit(9, CW))),
        refused(10, 4)
    );
}

#[test]
fn variables_have_the_bound_type() {
    let both = let_in(lit(4, CA), let_in(int(1), read(sum(var(1), var(0)))));
    assert_eq!(t(both), value(8, INT, 4, 0));
    let other = let_in(lit(4, CA), let_in(int(1), read(sum(var(0), var(1)))));
    assert_eq!(t(other), refused(9, 5));
    // The innermost let is 0 again behind an inner let.
    let behind = let_in(int(2), sum(let_in(lit(4, CW), read(var(0))), var(0)));
    assert_eq!(t(behind), value(9, INT, 4, 0));
    // 0 let, 1 literal, 2 sum, 3 let, 4 literal, 5 read of the outer int.
    let wrong = let_in(int(2), sum(let_in(lit(4, CW), read(var(1))), var(0)));
    assert_eq!(t(wrong), refused(9, 5));
}

#[test]
fn a_node_is_judged_after_its_parts_left_before_right() {
    let bad = || read(int(1));
    let loose = || lit(9, CW);
    assert_eq!(t(sum(bad(), loose())), refused(9, 1));
    assert_eq!(t(sum(loose(), bad())), refused(10, 1));
    assert_eq!(t(sum(int(1), bad())), refused(9, 2));
    assert_eq!(t(sum(lit(0, CW), bad())), refused(9, 2));
    assert_eq!(t(assign(bad(), loose())), refused(9, 1));
    assert_eq!(t(assign(int(1), loose())), refused(10, 2));
    assert_eq!(t(let_in(bad(), loose())), refused(9, 1));
    assert_eq!(t(let_in(int(1), loose())), refused(10, 2));
    assert_eq!(t(cast(CW, bad())), refused(9, 1));
    assert_eq!(t(cast(CW, loose())), refused(10, 1));
    assert_eq!(t(field(9, loose())), refused(10, 1));
    assert_eq!(t(read(loose())), refused(10, 1));
    assert_eq!(t(unchecked(loose())), refused(10, 1));
    assert_eq!(t(read(sum(loose(), bad()))), refused(10, 2));
    assert_eq!(t(read(sum(lit(4, CA), loose()))), refused(10, 3));
    assert_eq!(
        t(sum(sum(int(1), int(2)), sum(int(3), bad()))),
        refused(9, 6)
    );
}

#[test]
fn the_node_s_number_counts_every_node_before_it() {
    // 0 let, 1 malloc, 2 let, 3 unchecked, 4 cast, 5 literal, 6 assign,
    // 7 field, 8 variable, 9 sum, 10 variable, 11 literal.
    let expr = |last: Bytes| {
        let_in(
            malloc(to_struct(0)),
            let_in(
                unchecked(cast(0, int(1))),
                assign(field(0, var(1)), sum(var(0), last)),
            ),
        )
    };
    // Steps: malloc, let, cast, unwrap, let, field, sum, assign.
    assert_eq!(t(expr(int(1))), value(2, INT, 8, 3));
    assert_eq!(t(expr(lit(9, CW))), refused(10, 11));
    assert_eq!(t(expr(lit(4, CW))), refused(9, 9));
}

#[test]
fn reads_of_null_are_typed_like_others() {
    assert_eq!(t(read(lit(0, CW))), ran(End::Null, 1, 0));
    assert_eq!(t(read(lit(0, CS))), refused(9, 0));
}
