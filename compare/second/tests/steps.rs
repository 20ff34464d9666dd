//! Each step rule, also for words whose type is another than the judged one
//! (unchecked code can make such).

mod common;
use common::*;
use second::{Answer, End, Kind, Words};

const BIG: u64 = 4_294_967_295;

const CW: u64 = 1; // c.word.0
const UW: u64 = 2; // u.word.0
const CA: u64 = 3; // c.array.2.0
const UA: u64 = 4; // u.array.2.0
const CS: u64 = 5; // c.struct.0
const US: u64 = 6; // u.struct.0
const CA0: u64 = 7; // c.array.0.0
const CT: u64 = 8; // c.struct.1
const UCW: u64 = 9; // u.word.1
const UCS: u64 = 10; // u.word.5
const UCA: u64 = 11; // u.word.3

/// Struct 0: int, c.struct.0, u.word.0; struct 1: int. Words: 1 to 3 a struct
/// 0 (0, null, 9), 4 and 5 the ints 7 and 8, 6 the array pointer 4, 7 the
/// struct pointer 1, 8 a null struct 1 pointer, 9 an int 0, 10 the array of 0
/// at 4, 11 a null array of 0. Words 12 to 16 are undefined.
fn over(expr: Bytes) -> Bytes {
    let types = [
        c(to_word(0)),
        u(to_word(0)),
        c(to_array(2, 0)),
        u(to_array(2, 0)),
        c(to_struct(0)),
        u(to_struct(0)),
        c(to_array(0, 0)),
        c(to_struct(1)),
        u(to_word(CW)),
        u(to_word(CS)),
        u(to_word(CA)),
    ];
    let cells = [
        (1, 0, 0),
        (1, 0, CS),
        (1, 9, UW),
        (1, 7, 0),
        (1, 8, 0),
        (1, 4, CA),
        (1, 1, CS),
        (1, 0, CT),
        (1, 0, 0),
        (1, 4, CA0),
        (1, 0, CA0),
    ];
    image(&[vec![0, CS, UW], vec![0]], &types, &cells, expr)
}

fn s(expr: Bytes) -> Answer {
    ask(&over(expr))
}

fn heap_after(expr: Bytes) -> Words {
    ask_heap(&over(expr), 16, 100_000).1
}

/// The word at an address, read in unchecked code as if of another type.
fn peek(pointer: u64, address: u64) -> Bytes {
    read(lit(address, pointer))
}

#[test]
fn sums_of_ints() {
    assert_eq!(s(sum(int(BIG), int(1))), value(0, INT, 1, 0));
    assert_eq!(s(sum(int(BIG), int(BIG))), value(BIG - 1, INT, 1, 0));
    assert_eq!(s(sum(int(BIG - 1), int(1))), value(BIG, INT, 1, 0));
    assert_eq!(s(sum(int(0), int(0))), value(0, INT, 1, 0));
    assert_eq!(
        s(sum(sum(int(1), int(2)), sum(int(3), int(4)))),
        value(10, INT, 3, 0)
    );
}

#[test]
fn sums_of_checked_array_pointers() {
    assert_eq!(s(read(sum(lit(4, CA), int(0)))), value(7, INT, 2, 0));
    assert_eq!(s(read(sum(lit(4, CA), int(1)))), value(8, INT, 2, 0));
    assert_eq!(s(read(sum(lit(4, CA), int(2)))), ran(End::Bounds, 2, 0));
    assert_eq!(s(read(sum(lit(4, CA), int(3)))), ran(End::Bounds, 2, 0));
    // "value 0 halts with Null", the right side being whatever.
    assert_eq!(s(read(sum(lit(0, CA), int(0)))), ran(End::Null, 1, 0));
    assert_eq!(s(read(sum(lit(0, CA), int(4)))), ran(End::Null, 1, 0));
    assert_eq!(s(read(sum(lit(0, CA0), int(4)))), ran(End::Null, 1, 0));
    assert_eq!(s(read(sum(lit(4, CA0), int(0)))), ran(End::Bounds, 2, 0));
}

#[test]
fn slip_a_wrapped_sum_is_not_in_bounds() {
    // 4 + (2^32 - 1) is 3, and word 3 is defined.
    assert_eq!(s(read(sum(lit(4, CA), int(BIG)))), ran(End::Bounds, 2, 0));
    assert_eq!(
        s(assign(sum(lit(4, CA), int(BIG)), int(1))),
        ran(End::Bounds, 2, 0)
    );
    // 4 + (2^32 - 4) is 0: Null goes before Bounds.
    assert_eq!(s(read(sum(lit(4, CA), int(BIG - 3)))), ran(End::Null, 2, 0));
}

#[test]
fn n_falls_by_the_whole_right_side() {
    // 65,536 would be 0 and 65,537 would be 1 if only 16 bits counted.
    assert_eq!(
        s(read(sum(lit(4, CA), int(65_536)))),
        ran(End::Bounds, 2, 0)
    );
    assert_eq!(
        s(read(sum(lit(4, CA), int(65_537)))),
        ran(End::Bounds, 2, 0)
    );
    assert_eq!(
        s(read(sum(lit(4, CA), int(65_535)))),
        ran(End::Bounds, 2, 0)
    );
}

#[test]
fn sums_of_unchecked_array_pointers() {
    let at = |number, by| s(unchecked(read(sum(lit(number, UA), int(by)))));
    assert_eq!(at(4, 1), value(8, INT, 3, 1));
    // No bounds, no Null, and the sum wraps.
    assert_eq!(at(4, 5), value(0, INT, 3, 1));
    assert_eq!(at(0, 4), value(7, INT, 3, 1));
    assert_eq!(at(BIG, 5), value(7, INT, 3, 1));
    assert_eq!(at(4, 8), ran(End::Stuck, 1, 1));
    assert_eq!(at(0, 0), ran(End::Stuck, 1, 1));
}

#[test]
fn a_sum_has_the_left_side_s_type_as_it_stands() {
    // Judged int, but word 6 holds c.array.2.0.
    assert_eq!(
        s(unchecked(sum(peek(UW, 6), int(1)))),
        value(5, array(C, 1, 0), 3, 1)
    );
    assert_eq!(
        s(unchecked(sum(peek(UW, 6), int(9)))),
        value(13, array(C, 0, 0), 3, 1)
    );
    assert_eq!(
        s(unchecked(sum(peek(UW, 10), int(1)))),
        value(5, array(C, 0, 0), 3, 1)
    );
    assert_eq!(
        s(unchecked(sum(peek(UW, 11), int(1)))),
        ran(End::Null, 2, 1)
    );
    // Other pointers keep their type, 0 too.
    assert_eq!(
        s(unchecked(sum(peek(UW, 7), int(1)))),
        value(2, strukt(C, 0), 3, 1)
    );
    assert_eq!(
        s(unchecked(sum(peek(UW, 8), int(1)))),
        value(1, strukt(C, 1), 3, 1)
    );
    assert_eq!(
        s(unchecked(sum(peek(UW, 3), int(1)))),
        value(10, word(U, 0), 3, 1)
    );
    // The right side's type doesn't matter, only its number.
    assert_eq!(s(unchecked(sum(int(1), peek(UW, 6)))), value(5, INT, 3, 1));
    assert_eq!(
        s(unchecked(sum(peek(UW, 6), peek(UW, 7)))),
        value(5, array(C, 1, 0), 4, 1)
    );
}

#[test]
fn casts_change_the_type_only() {
    assert_eq!(s(cast(UA, int(BIG))), value(BIG, array(U, 2, 0), 1, 0));
    assert_eq!(s(cast(0, lit(0, CS))), value(0, INT, 1, 0));
    assert_eq!(
        s(unchecked(cast(CS, lit(0, CA)))),
        value(0, strukt(C, 0), 2, 1)
    );
    assert_eq!(s(cast(0, cast(UW, cast(US, int(3))))), value(3, INT, 3, 0));
}

#[test]
fn lets() {
    assert_eq!(s(let_in(int(3), int(4))), value(4, INT, 1, 0));
    assert_eq!(s(let_in(int(3), sum(var(0), var(0)))), value(6, INT, 2, 0));
    // Inner lets: the outer variable is one further out.
    let nested = let_in(int(3), let_in(int(10), sum(var(0), sum(var(1), var(1)))));
    assert_eq!(s(nested), value(16, INT, 4, 0));
    // The bound part of an inner let is not one further out.
    let bound = let_in(int(3), let_in(sum(var(0), int(1)), sum(var(0), var(1))));
    assert_eq!(s(bound), value(7, INT, 4, 0));
    let three = let_in(
        int(1),
        let_in(int(20), let_in(int(300), sum(var(2), sum(var(1), var(0))))),
    );
    assert_eq!(s(three), value(321, INT, 5, 0));
    // Each kind of node has its uses replaced.
    let all = let_in(
        lit(4, CA),
        assign(
            sum(var(0), int(1)),
            sum(read(var(0)), unchecked(cast(0, var(0)))),
        ),
    );
    assert_eq!(s(all), value(11, INT, 7, 4));
    assert_eq!(
        s(let_in(lit(1, CS), field(2, var(0)))),
        value(3, word(C, 2), 2, 0)
    );
}

#[test]
fn a_let_is_evaluated_once_and_nothing_under_its_body_before() {
    // One malloc, its word assigned and read.
    let once = let_in(
        malloc(to_word(0)),
        let_in(assign(var(0), int(5)), read(var(1))),
    );
    assert_eq!(s(once.clone()), value(5, INT, 5, 0));
    let heap = heap_after(once);
    assert_eq!(heap[11], Some((5, INT)));
    assert_eq!(heap[12], None);
    // The body's halt comes after the bound part's steps.
    let order = let_in(assign(lit(4, CW), int(1)), read(lit(0, CW)));
    assert_eq!(s(order.clone()), ran(End::Null, 3, 0));
    assert_eq!(heap_after(order)[3], Some((1, INT)));
    let first = let_in(read(lit(0, CW)), assign(lit(4, CW), int(1)));
    assert_eq!(s(first.clone()), ran(End::Null, 1, 0));
    assert_eq!(heap_after(first)[3], Some((7, INT)));
}

#[test]
fn reads() {
    assert_eq!(s(read(lit(4, CW))), value(7, INT, 1, 0));
    assert_eq!(s(read(lit(0, CW))), ran(End::Null, 1, 0));
    assert_eq!(s(read(lit(0, CA))), ran(End::Null, 1, 0));
    assert_eq!(s(read(lit(0, CA0))), ran(End::Null, 1, 0));
    assert_eq!(s(read(lit(4, CA0))), ran(End::Bounds, 1, 0));
    assert_eq!(s(read(lit(99, CA0))), ran(End::Bounds, 1, 0));
    // Unchecked: no Null, but address 0 is never defined.
    assert_eq!(s(unchecked(read(lit(0, UW)))), ran(End::Stuck, 0, 1));
    assert_eq!(s(unchecked(read(lit(12, UW)))), ran(End::Stuck, 0, 1));
    assert_eq!(s(unchecked(read(lit(17, UW)))), ran(End::Stuck, 0, 1));
    assert_eq!(s(unchecked(read(lit(BIG, UW)))), ran(End::Stuck, 0, 1));
    assert_eq!(s(unchecked(read(lit(0, UA)))), ran(End::Stuck, 0, 1));
}

#[test]
fn reads_give_the_word_s_own_type() {
    assert_eq!(s(unchecked(peek(UW, 2))), value(0, strukt(C, 0), 2, 1));
    assert_eq!(s(unchecked(peek(UCW, 4))), value(7, INT, 2, 1));
}

#[test]
fn reads_through_what_the_word_s_own_type_says() {
    // Judged c.word.0. Word 4 holds the int 7: word 7 is read (a struct
    // pointer), no check being made.
    assert_eq!(
        s(unchecked(read(peek(UCW, 4)))),
        value(1, strukt(C, 0), 3, 1)
    );
    // Word 9 holds the int 0: no checked pointer, so Stuck and not Null.
    assert_eq!(s(unchecked(read(peek(UCW, 9)))), ran(End::Stuck, 1, 1));
    // Word 7 holds a struct pointer to 1; word 8 a null one.
    assert_eq!(s(unchecked(read(peek(UCW, 7)))), value(0, INT, 3, 1));
    assert_eq!(s(unchecked(read(peek(UCW, 8)))), ran(End::Null, 2, 1));
    // Word 10 holds an array pointer of 0, word 11 a null one.
    assert_eq!(s(unchecked(read(peek(UCW, 10)))), ran(End::Bounds, 2, 1));
    assert_eq!(s(unchecked(read(peek(UCW, 11)))), ran(End::Null, 2, 1));
    assert_eq!(s(unchecked(read(peek(UCA, 10)))), ran(End::Bounds, 2, 1));
}

#[test]
fn assigns() {
    let at = |pointer: Bytes| assign(pointer, int(3));
    assert_eq!(s(at(lit(4, CW))), value(3, INT, 1, 0));
    assert_eq!(heap_after(at(lit(4, CW)))[3], Some((3, INT)));
    assert_eq!(heap_after(at(sum(lit(4, CA), int(1))))[4], Some((3, INT)));
    assert_eq!(s(at(lit(0, CW))), ran(End::Null, 1, 0));
    assert_eq!(s(at(lit(0, CA))), ran(End::Null, 1, 0));
    assert_eq!(s(at(lit(0, CA0))), ran(End::Null, 1, 0));
    assert_eq!(s(at(lit(4, CA0))), ran(End::Bounds, 1, 0));
    assert_eq!(s(unchecked(at(lit(0, UW)))), ran(End::Stuck, 0, 1));
    assert_eq!(s(unchecked(at(lit(12, UW)))), ran(End::Stuck, 0, 1));
    assert_eq!(s(unchecked(at(lit(BIG, UA)))), ran(End::Stuck, 0, 1));
}

#[test]
fn an_assign_that_does_not_happen_leaves_the_heap() {
    let before = heap_after(int(0));
    for expr in [
        assign(lit(0, CW), int(3)),
        assign(lit(4, CA0), int(3)),
        unchecked(assign(lit(12, UW), int(3))),
    ] {
        assert_eq!(heap_after(expr), before);
    }
}

#[test]
fn assigns_put_the_value_s_own_type() {
    // Word 2 was c.struct.0 and becomes an int.
    let expr = unchecked(assign(lit(2, UW), int(5)));
    assert_eq!(s(expr.clone()), value(5, INT, 2, 1));
    assert_eq!(heap_after(expr)[1], Some((5, INT)));
    // Judged int, but the value is the c.array.2.0 of word 6.
    let expr = unchecked(assign(lit(4, CW), peek(UW, 6)));
    assert_eq!(s(expr.clone()), value(4, array(C, 2, 0), 3, 1));
    assert_eq!(heap_after(expr)[3], Some((4, array(C, 2, 0))));
}

#[test]
fn an_assign_s_parts_step_before_its_checks() {
    // The pointer is null, yet the value part's three steps come first.
    let expr = assign(
        lit(0, CW),
        assign(sum(lit(4, CA), int(1)), sum(int(1), int(1))),
    );
    assert_eq!(s(expr.clone()), ran(End::Null, 4, 0));
    assert_eq!(heap_after(expr)[4], Some((2, INT)));
    // The pointer part goes before the value part.
    let expr = assign(read(lit(0, UCW)), read(lit(0, CW)));
    assert_eq!(s(unchecked(expr)), ran(End::Stuck, 0, 1));
    let expr = sum(read(lit(4, CA0)), read(lit(0, CW)));
    assert_eq!(s(expr), ran(End::Bounds, 1, 0));
    let expr = sum(read(lit(0, CW)), read(lit(4, CA0)));
    assert_eq!(s(expr), ran(End::Null, 1, 0));
    // Left to right through the heap: 7 is read before it becomes 1.
    let expr = sum(read(lit(4, CW)), assign(lit(4, CW), int(1)));
    assert_eq!(s(expr), value(8, INT, 3, 0));
    let expr = sum(assign(lit(4, CW), int(1)), read(lit(4, CW)));
    assert_eq!(s(expr), value(2, INT, 3, 0));
}

#[test]
fn field_addresses() {
    assert_eq!(s(field(0, lit(1, CS))), value(1, word(C, 0), 1, 0));
    assert_eq!(s(field(2, lit(1, CS))), value(3, word(C, 2), 1, 0));
    assert_eq!(s(field(0, lit(0, CS))), ran(End::Null, 1, 0));
    assert_eq!(s(field(1, lit(0, CS))), ran(End::Null, 1, 0));
    // Unchecked: no Null, and the sum wraps.
    assert_eq!(s(field(1, lit(0, US))), value(1, word(U, 5), 1, 0));
    assert_eq!(s(field(1, lit(BIG, US))), value(0, word(U, 5), 1, 0));
    assert_eq!(s(field(2, lit(BIG, US))), value(1, word(U, 2), 1, 0));
    assert_eq!(s(field(0, lit(BIG, US))), value(BIG, word(U, 0), 1, 0));
}

#[test]
fn field_addresses_of_what_the_word_s_own_type_says() {
    // Judged c.struct.0. Word 4 holds an int: Stuck; word 9 the int 0: Stuck.
    assert_eq!(s(unchecked(field(0, peek(UCS, 4)))), ran(End::Stuck, 1, 1));
    assert_eq!(s(unchecked(field(0, peek(UCS, 9)))), ran(End::Stuck, 1, 1));
    // Word 11 holds a null array pointer: no struct pointer, so Stuck.
    assert_eq!(s(unchecked(field(0, peek(UCS, 11)))), ran(End::Stuck, 1, 1));
    // Word 8 holds a null pointer to struct 1, which has one field: no such
    // field is Stuck before Null.
    assert_eq!(s(unchecked(field(0, peek(UCS, 8)))), ran(End::Null, 2, 1));
    assert_eq!(s(unchecked(field(1, peek(UCS, 8)))), ran(End::Stuck, 1, 1));
    assert_eq!(
        s(unchecked(field(1, peek(UCS, 7)))),
        value(2, word(C, 5), 3, 1)
    );
}

#[test]
fn a_wrapped_field_address_of_a_checked_pointer() {
    // The struct pointer 2^32 - 1 is made by a cast; field 1 is 0, and that the
    // read finds Null.
    let expr = let_in(unchecked(cast(CS, int(BIG))), field(1, var(0)));
    assert_eq!(s(expr.clone()), value(0, word(C, 5), 4, 1));
    assert_eq!(s(read(expr)), ran(End::Null, 5, 1));
}

fn holes(expr: Bytes) -> (Answer, Words) {
    // W = 8; words 2 and 5 are defined: runs 1; 3, 4; 6, 7, 8.
    let types = [c(to_word(0)), u(to_word(0))];
    let cells = [(2, 1, 0), (3, 1, 0)];
    let image = image(&[vec![0, 1, 2]], &types, &cells, expr);
    ask_heap(&image, 8, 100_000)
}

#[test]
fn malloc_takes_the_lowest_run() {
    let at = |count: u64| holes(malloc(to_array(count, 0))).0;
    assert_eq!(at(1), value(1, array(C, 1, 0), 1, 0));
    assert_eq!(at(2), value(3, array(C, 2, 0), 1, 0));
    assert_eq!(at(3), value(6, array(C, 3, 0), 1, 0));
    assert_eq!(at(4), ran(End::Room, 1, 0));
    assert_eq!(at(65_535), ran(End::Room, 1, 0));
    assert_eq!(holes(malloc(to_word(1))).0, value(1, word(C, 1), 1, 0));
    assert_eq!(holes(malloc(to_struct(0))).0, value(6, strukt(C, 0), 1, 0));
}

#[test]
fn malloc_fills_with_zeros_of_the_target_s_types() {
    let one = Some((1, INT));
    let zero = |kind: Kind| Some((0, kind));
    let (_, heap) = holes(malloc(to_struct(0)));
    let expected = [
        None,
        one,
        None,
        None,
        one,
        zero(INT),
        zero(word(C, 0)),
        zero(word(U, 0)),
    ];
    assert_eq!(heap, expected);
    let (_, heap) = holes(malloc(to_array(2, 2)));
    let expected = [
        None,
        one,
        zero(word(U, 0)),
        zero(word(U, 0)),
        one,
        None,
        None,
        None,
    ];
    assert_eq!(heap, expected);
    // Room leaves the heap.
    let (_, heap) = holes(malloc(to_array(4, 0)));
    assert_eq!(heap, [None, one, None, None, one, None, None, None]);
}

#[test]
fn malloc_after_malloc() {
    // 3 words at 6, 2 at 3, 1 at 1, then Room.
    let several = |last: Bytes| {
        let_in(
            malloc(to_array(3, 0)),
            let_in(malloc(to_array(2, 0)), let_in(malloc(to_word(0)), last)),
        )
    };
    assert_eq!(holes(several(var(0))).0, value(1, word(C, 0), 6, 0));
    assert_eq!(holes(several(var(1))).0, value(3, array(C, 2, 0), 6, 0));
    assert_eq!(holes(several(var(2))).0, value(6, array(C, 3, 0), 6, 0));
    assert_eq!(holes(several(malloc(to_word(0)))).0, ran(End::Room, 7, 0));
}

#[test]
fn malloc_at_the_heap_s_ends() {
    let all = |count: u64, words| ask_in(&bare(malloc(to_array(count, 0))), words);
    assert_eq!(all(1, 0), ran(End::Room, 1, 0));
    assert_eq!(all(1, 1), value(1, array(C, 1, 0), 1, 0));
    assert_eq!(all(2, 1), ran(End::Room, 1, 0));
    assert_eq!(all(16, 16), value(1, array(C, 16, 0), 1, 0));
    assert_eq!(all(17, 16), ran(End::Room, 1, 0));
    // The last word defined: the run ends before it.
    let last = |count: u64| {
        let cells = [(4, 1, 0)];
        ask_in(&image(&[], &[], &cells, malloc(to_array(count, 0))), 4)
    };
    assert_eq!(last(3), value(1, array(C, 3, 0), 1, 0));
    assert_eq!(last(4), ran(End::Room, 1, 0));
}

#[test]
fn a_pointer_type_that_the_table_lacks() {
    // The image has no types at all; malloc and field make some.
    let image = image(&[vec![0, 0]], &[], &[], field(1, malloc(to_struct(0))));
    assert_eq!(ask(&image), value(2, word(C, 0), 2, 0));
}
