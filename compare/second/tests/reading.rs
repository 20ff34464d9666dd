//! Faults 1 to 8 of the loader, at every kind of place.

mod common;
use common::*;
use second::Answer;

/// What a number of the full image below stands for.
#[derive(Clone, Copy, PartialEq, Debug)]
enum Is {
    Format,
    Count,
    Unknown,
    Gap,
    Free,
}
use Is::{Count, Format, Free, Gap, Unknown};

/// An image that has every kind of number at least once.
/// Types: 1 c.word.0, 2 u.struct.0, 3 c.array.3.1; struct 0: int, c.word.0.
fn full() -> Vec<(u64, Is)> {
    vec![
        (1, Format),
        (1, Count), // S
        (3, Count), // T
        (2, Count), // fields
        (0, Unknown),
        (1, Unknown),
        (0, Unknown), // entry 1: mode, kind, word type
        (0, Unknown),
        (0, Unknown),
        (1, Unknown), // entry 2: mode, kind, struct
        (1, Unknown),
        (0, Unknown),
        (0, Unknown), // entry 3: mode, kind, count, word type
        (2, Unknown),
        (3, Count),
        (1, Unknown),
        (2, Count), // C
        (1, Gap),
        (7, Free),
        (0, Unknown),
        (2, Gap),
        (0, Free),
        (1, Unknown),
        (2, Unknown), // let
        (3, Unknown), // bound: malloc of struct 0
        (1, Unknown),
        (0, Unknown),
        (2, Unknown), // body: let
        (3, Unknown), // bound: malloc of array 2 of int
        (2, Unknown),
        (2, Count),
        (0, Unknown),
        (2, Unknown), // body: let
        (3, Unknown), // bound: malloc of word 1
        (0, Unknown),
        (1, Unknown),
        (8, Unknown), // body: sum
        (6, Unknown), // left: read
        (8, Unknown), // sum
        (1, Unknown), // variable 1
        (1, Unknown),
        (0, Unknown), // literal 1
        (1, Free),
        (0, Unknown),
        (7, Unknown), // right: assign
        (9, Unknown), // field 0
        (0, Free),
        (1, Unknown), // variable 2
        (2, Unknown),
        (4, Unknown), // unchecked
        (5, Unknown), // cast to int
        (0, Unknown),
        (0, Unknown), // literal 5
        (5, Free),
        (0, Unknown),
    ]
}

/// The full image up to number `index`, which is not included.
fn before(index: usize) -> Bytes {
    full()[..index]
        .iter()
        .flat_map(|(value, _)| n(*value))
        .collect()
}

/// The full image with other bytes for number `index`.
fn with(index: usize, bytes: &[u8]) -> Bytes {
    let rest = full()[index + 1..]
        .iter()
        .flat_map(|(value, _)| n(*value))
        .collect();
    join(&[before(index), bytes.to_vec(), rest])
}

#[test]
fn the_full_image_runs() {
    // Cells 1 and 3. malloc of 2 words: 2 is alone, so 4 and 5; array of 2: 6
    // and 7; word: 2. Steps: malloc and let three times (6), sum 7, read 8,
    // field 9, cast 10 (unchecked), unwrap 11, assign 12, sum 13.
    let image = before(full().len());
    let (answer, heap) = ask_heap(&image, 16, 100_000);
    assert_eq!(answer, value(5, INT, 13, 10));
    let mut expected = vec![None; 16];
    expected[0] = Some((7, INT));
    expected[1] = Some((0, word(C, 0)));
    expected[2] = Some((0, word(C, 0)));
    expected[3] = Some((5, INT));
    expected[4] = Some((0, word(C, 0)));
    expected[5] = Some((0, INT));
    expected[6] = Some((0, INT));
    assert_eq!(heap, expected);
}

#[test]
fn fault_1_before_each_number() {
    for index in 0..full().len() {
        let image = before(index);
        assert_eq!(ask(&image), refused(1, image.len()), "number {index}");
    }
}

#[test]
fn fault_1_inside_each_number() {
    for index in 0..full().len() {
        for inside in ["80", "81", "FF FF", "80 80 80", "FF FF FF FF"] {
            let image = join(&[before(index), hex(inside)]);
            assert_eq!(ask(&image), refused(1, image.len()), "number {index}");
        }
    }
}

#[test]
fn fault_2_at_each_number() {
    for index in 0..full().len() {
        let place = before(index).len();
        for bad in [
            "80 00",
            "81 00",
            "85 80 00",
            "FF FF FF FF 00",
            "FF FF FF FF 10",
            "80 80 80 80 10",
            "FF FF FF FF 8F",
            "FF FF FF FF FF",
            "81 80 80 80 80 00",
        ] {
            let image = with(index, &hex(bad));
            assert_eq!(ask(&image), refused(2, place), "number {index}, {bad}");
            let cut = join(&[before(index), hex(bad)]);
            assert_eq!(ask(&cut), refused(2, place), "number {index}, {bad}, cut");
        }
    }
}

#[test]
fn the_largest_number_at_each_number() {
    for (index, (_, is)) in full().into_iter().enumerate() {
        let place = before(index).len();
        let image = with(index, &hex("FF FF FF FF 0F"));
        let answer = ask(&image);
        match is {
            Format => assert_eq!(answer, refused(3, 0)),
            Count => assert_eq!(answer, refused(4, place), "number {index}"),
            Unknown => assert_eq!(answer, refused(5, place), "number {index}"),
            Gap => assert_eq!(answer, refused(7, place), "number {index}"),
            Free => assert!(
                !matches!(answer, Answer::Refused(r) if r.number < 9),
                "number {index}: {answer:?}"
            ),
        }
    }
}

#[test]
fn a_fault_counts_before_a_later_one() {
    // Each number spoilt in turn, with all later ones missing or spoilt too.
    for (index, (_, is)) in full().into_iter().enumerate() {
        let place = before(index).len();
        let image = join(&[before(index), hex("FF FF FF FF 0F 80")]);
        let expected = match is {
            Format => refused(3, 0),
            Count => refused(4, place),
            Unknown => refused(5, place),
            Gap => refused(7, place),
            Free => refused(1, image.len()),
        };
        assert_eq!(ask(&image), expected, "number {index}");
    }
}

#[test]
fn fault_3() {
    assert_eq!(ask(&hex("00")), refused(3, 0));
    assert_eq!(ask(&hex("02 00 00 00 00 05 00")), refused(3, 0));
    assert_eq!(ask(&hex("81 01 00 00 00 00 05 00")), refused(3, 0));
    assert_eq!(ask(&hex("01")), refused(1, 1));
    assert_eq!(ask(&hex("81 00")), refused(2, 0));
    assert_eq!(ask(&hex("81")), refused(1, 1));
}

#[test]
fn fault_5_mode_and_kinds() {
    // Mode 2, target kind 3, both cut behind the number: fault 5, not 1.
    assert_eq!(ask(&hex("01 00 01 02")), refused(5, 3));
    assert_eq!(ask(&hex("01 00 01 00 03")), refused(5, 4));
    assert_eq!(ask(&hex("01 00 00 00 03 03")), refused(5, 5));
    assert_eq!(ask(&hex("01 00 00 00 0A")), refused(5, 4));
    assert_eq!(ask(&hex("01 00 00 00 80 01")), refused(5, 4));
}

#[test]
fn fault_5_word_types() {
    // A field's type: T is known, T + 1 not; T stands before the structs.
    assert_eq!(ask(&hex("01 01 00 01 00 00 00 05 00")), value(5, INT, 0, 0));
    assert_eq!(ask(&hex("01 01 00 01 01 00 00 05 00")), refused(5, 4));
    assert_eq!(
        ask(&hex("01 01 01 01 01 00 00 00 00 00 05 00")),
        value(5, INT, 0, 0)
    );
    assert_eq!(
        ask(&hex("01 01 01 01 02 00 00 00 00 00 05 00")),
        refused(5, 4)
    );
    // A cell's type.
    assert_eq!(ask(&hex("01 00 00 01 01 07 01 00 05 00")), refused(5, 6));
    // A literal's and a cast's type.
    assert_eq!(ask(&hex("01 00 00 00 00 05 01")), refused(5, 6));
    assert_eq!(ask(&hex("01 00 00 00 05 01 00 05 00")), refused(5, 5));
    // A malloc's: T is known there, T + 1 not, for words and arrays.
    assert_eq!(ask(&bare(malloc(to_word(1)))), refused(5, 6));
    assert_eq!(ask(&bare(malloc(to_array(2, 1)))), refused(5, 7));
    let types = [c(to_word(0))];
    assert_eq!(
        ask(&image(&[], &types, &[], malloc(to_word(1)))),
        value(1, word(C, 1), 1, 0)
    );
    let expr = malloc(to_array(2, 1));
    assert_eq!(
        ask(&image(&[], &types, &[], expr)),
        value(1, array(C, 2, 1), 1, 0)
    );
    assert_eq!(
        ask(&image(&[], &types, &[], malloc(to_word(2)))),
        refused(5, 9)
    );
}

#[test]
fn fault_5_in_the_type_list() {
    // Entry 1 may name 0 only; entry 2 may name 0 and 1.
    assert_eq!(ask(&hex("01 00 01 00 00 01 00 00 05 00")), refused(5, 5));
    assert_eq!(
        ask(&hex("01 00 02 00 00 00 00 00 01 00 00 05 00")),
        value(5, INT, 0, 0)
    );
    assert_eq!(
        ask(&hex("01 00 02 00 00 00 00 00 02 00 00 05 00")),
        refused(5, 8)
    );
    assert_eq!(
        ask(&hex("01 00 02 00 00 01 00 00 00 00 00 05 00")),
        refused(5, 5)
    );
    // The same in an array's target.
    assert_eq!(ask(&hex("01 00 01 00 02 04 01 00 00 05 00")), refused(5, 6));
    assert_eq!(
        ask(&hex("01 00 02 00 00 00 00 02 04 01 00 00 05 00")),
        value(5, INT, 0, 0)
    );
}

#[test]
fn fault_5_structs() {
    // With S = 0 no struct number is known; with S = 1 only 0.
    assert_eq!(ask(&hex("01 00 01 00 01 00 00 00 05 00")), refused(5, 5));
    assert_eq!(
        ask(&hex("01 01 01 01 00 00 01 00 00 00 05 00")),
        value(5, INT, 0, 0)
    );
    assert_eq!(
        ask(&hex("01 01 01 01 00 00 01 01 00 00 05 00")),
        refused(5, 7)
    );
    assert_eq!(ask(&bare(malloc(to_struct(0)))), refused(5, 6));
    assert_eq!(
        ask(&image(&[vec![0]], &[], &[], malloc(to_struct(0)))),
        value(1, strukt(C, 0), 1, 0)
    );
    assert_eq!(
        ask(&image(&[vec![0]], &[], &[], malloc(to_struct(1)))),
        refused(5, 8)
    );
}

#[test]
fn fault_5_variables() {
    assert_eq!(ask(&bare(var(0))), refused(5, 5));
    // "A let's bound part is not inside that let."
    assert_eq!(ask(&bare(let_in(var(0), int(1)))), refused(5, 6));
    assert_eq!(ask(&bare(let_in(int(1), var(0)))), value(1, INT, 1, 0));
    assert_eq!(ask(&bare(let_in(int(1), var(1)))), refused(5, 9));
    // The bound part of an inner let is inside the outer one.
    assert_eq!(
        ask(&bare(let_in(int(1), let_in(var(0), var(1))))),
        value(1, INT, 2, 0)
    );
    assert_eq!(
        ask(&bare(let_in(int(1), let_in(var(1), var(1))))),
        refused(5, 10)
    );
    assert_eq!(
        ask(&bare(let_in(int(1), let_in(var(0), var(2))))),
        refused(5, 12)
    );
    // Behind a let's end its variable is unknown again.
    assert_eq!(
        ask(&bare(sum(let_in(int(1), var(0)), var(0)))),
        refused(5, 12)
    );
    assert_eq!(
        ask(&bare(let_in(let_in(int(1), var(0)), var(1)))),
        refused(5, 12)
    );
    // A part of any node counts the lets around it.
    let deep = let_in(
        int(1),
        read(assign(cast(0, var(0)), field(0, unchecked(var(1))))),
    );
    assert_eq!(ask(&bare(deep)), refused(5, 18));
}

#[test]
fn fault_6_type_entries() {
    let first = [c(to_word(0)), c(to_word(0))];
    assert_eq!(ask(&image(&[], &first, &[], int(5))), refused(6, 6));
    let structs = [u(to_struct(0)), c(to_word(0)), u(to_struct(0))];
    assert_eq!(
        ask(&image(&[vec![0]], &structs, &[], int(5))),
        refused(6, 11)
    );
    let arrays = [c(to_array(300, 0)), c(to_array(300, 0))];
    assert_eq!(ask(&image(&[], &arrays, &[], int(5))), refused(6, 8));
    // Judged even if the image ends behind the entry.
    assert_eq!(ask(&hex("01 00 02 00 00 00 00 00 00")), refused(6, 6));
    // Other faults of the entry's numbers come first.
    assert_eq!(ask(&hex("01 00 02 00 00 00 00 00 80 00")), refused(2, 8));
    assert_eq!(ask(&hex("01 00 02 00 00 00 00 00")), refused(1, 8));
}

#[test]
fn no_fault_6_for_different_entries() {
    let types = [
        c(to_word(0)),
        u(to_word(0)),
        c(to_word(1)),
        c(to_struct(0)),
        c(to_struct(1)),
        u(to_struct(0)),
        c(to_array(0, 0)),
        c(to_array(1, 0)),
        u(to_array(1, 0)),
        c(to_array(1, 1)),
    ];
    assert_eq!(
        ask(&image(&[vec![0], vec![0]], &types, &[], int(5))),
        value(5, INT, 0, 0)
    );
}

#[test]
fn fault_6_gaps() {
    assert_eq!(ask(&hex("01 00 00 01 00 07 00 00 05 00")), refused(6, 4));
    // Judged before the cell's value is read.
    assert_eq!(ask(&hex("01 00 00 01 00")), refused(6, 4));
    assert_eq!(ask(&hex("01 00 00 01 00 80 00")), refused(6, 4));
    assert_eq!(
        ask(&image(&[], &[], &[(3, 7, 0), (0, 7, 0)], int(5))),
        refused(6, 7)
    );
    // Even where the address would be above W.
    assert_eq!(ask_in(&hex("01 00 00 01 00"), 0), refused(6, 4));
}

#[test]
fn fault_7() {
    let one = |gap| image(&[], &[], &[(gap, 7, 0)], int(5));
    assert_eq!(ask_in(&one(16), 16), value(5, INT, 0, 0));
    assert_eq!(ask_in(&one(17), 16), refused(7, 4));
    assert_eq!(ask_in(&one(1), 1), value(5, INT, 0, 0));
    assert_eq!(ask_in(&one(2), 1), refused(7, 4));
    assert_eq!(ask_in(&one(1), 0), refused(7, 4));
    assert_eq!(ask_in(&bare(int(5)), 0), value(5, INT, 0, 0));
    // Gaps add up.
    let two = |gap| image(&[], &[], &[(10, 7, 0), (gap, 8, 0)], int(5));
    assert_eq!(ask_in(&two(6), 16), value(5, INT, 0, 0));
    assert_eq!(ask_in(&two(7), 16), refused(7, 7));
    assert_eq!(ask_in(&two(4_294_967_295), 16), refused(7, 7));
    // 10 and then 2^32 - 9 would be 1 if the sum wrapped.
    assert_eq!(ask_in(&two(4_294_967_287), 16), refused(7, 7));
    // Judged before the cell's value is read.
    assert_eq!(ask_in(&hex("01 00 00 01 11"), 16), refused(7, 4));
    assert_eq!(ask_in(&hex("01 00 00 01 11 80 00"), 16), refused(7, 4));
}

#[test]
fn fault_8() {
    let image = bare(int(5));
    for tail in ["00", "80", "FF FF FF FF FF", "01 00 00 00 00 05 00"] {
        let longer = join(&[image.clone(), hex(tail)]);
        assert_eq!(ask(&longer), refused(8, 7));
    }
    // Before typing: the read of an int would be fault 9.
    assert_eq!(ask(&join(&[bare(read(int(5))), hex("00")])), refused(8, 8));
}

#[test]
fn typing_starts_after_the_whole_image_is_read() {
    // The left side's fault 9 is not seen before the right side's fault 5.
    assert_eq!(ask(&bare(sum(read(int(5)), lit(1, 1)))), refused(5, 11));
    assert_eq!(ask(&bare(sum(read(int(5)), int(1)))), refused(9, 1));
}

#[test]
fn cells_hold_any_value() {
    let cells = [(1, 4_294_967_295, 0), (2, 128, 0)];
    let (answer, heap) = ask_heap(&image(&[], &[], &cells, int(5)), 4, 10);
    assert_eq!(answer, value(5, INT, 0, 0));
    assert_eq!(
        heap,
        vec![Some((4_294_967_295, INT)), None, Some((128, INT)), None]
    );
}
