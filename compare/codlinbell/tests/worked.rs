//! The worked images of 01 through the wrapper, and the codes.

use codlinbell::*;

fn hex(text: &str) -> Vec<u8> {
    let bytes = text.split_whitespace();
    bytes
        .map(|byte| u8::from_str_radix(byte, 16).unwrap())
        .collect()
}

fn ask(text: &str) -> Answer {
    answer(&hex(text), &mut [7; 32])
}

fn ran(end: End, steps: u64, first: u64) -> Answer {
    let first_unchecked = if first == 0 { None } else { Some(first) };
    Answer::Ran(Outcome {
        end,
        steps,
        first_unchecked,
    })
}

fn value(value: u32, kind: Kind, steps: u64) -> Answer {
    ran(End::Value { value, kind }, steps, 0)
}

fn refused(fault: Fault, place: u64) -> Answer {
    Answer::Refused(Refusal { fault, place })
}

const P2: &str = "01 00 00 00 02 03 02 03 00 06 08 01 00 00 02 00";

#[test]
fn worked_images() {
    let of_struct = Kind::Struct {
        mode: Mode::Checked,
        of: 0,
    };
    assert_eq!(ask("01 00 00 00 00 05 00"), value(5, Kind::Int, 0));
    assert_eq!(ask(P2), value(0, Kind::Int, 4));
    assert_eq!(
        ask("01 00 00 00 02 03 02 03 00 06 08 01 00 00 03 00"),
        ran(End::Bounds, 4, 0)
    );
    assert_eq!(
        ask("01 01 01 02 00 01 00 01 00 00 02 03 01 00 07 09 01 01 00 01 00"),
        value(1, of_struct, 4)
    );
    assert_eq!(
        ask("01 01 01 02 00 01 00 01 00 02 01 00 00 01 01 01 00 01 01"),
        value(1, of_struct, 0)
    );
    assert_eq!(
        ask("01 01 01 02 00 01 00 01 00 02 01 00 00 01 01 00 00 01 01"),
        refused(Fault::Literal, 0)
    );
    assert_eq!(
        ask("01 00 01 00 00 00 00 07 00 00 01 00 07 00"),
        ran(End::Null, 1, 0)
    );
    assert_eq!(
        ask("01 00 01 01 00 00 00 04 06 05 01 00 09 00"),
        ran(End::Stuck, 1, 1)
    );
    assert_eq!(
        ask("01 00 01 01 00 00 00 06 05 01 00 09 00"),
        refused(Fault::Rule, 0)
    );
    assert_eq!(ask("01 00 00 00 00 85 00 00"), refused(Fault::Number, 5));
    assert_eq!(ask(""), refused(Fault::Ends, 0));
}

#[test]
fn heaps_and_limits() {
    let image = hex(P2);
    assert_eq!(answer(&image, &mut []), ran(End::Room, 1, 0));
    assert_eq!(answer(&image, &mut [7; 5]), ran(End::Room, 1, 0));
    let mut heap = [7; 9];
    assert_eq!(answer(&image, &mut heap), value(0, Kind::Int, 4));
    assert_eq!(heap, [0, 1, 0, 1, 0, 1, 0, 0, 7]);
    assert_eq!(word(&heap, 3), Some((0, Kind::Int)));
    assert_eq!(
        (word(&heap, 0), word(&heap, 4), word(&heap, 5)),
        (None, None, None)
    );
    assert_eq!(answer_within(&image, &mut heap, 3), ran(End::More, 3, 0));
}

#[test]
fn a_refusal_leaves_the_heap() {
    let mut heap = [9; 8];
    assert_eq!(answer(&[2], &mut heap), refused(Fault::Format, 0));
    assert_eq!(heap, [9; 8]);
}

#[test]
fn short_and_long_out() {
    let image = hex(P2);
    let mut heap = [9; 8];
    let mut short = [1; 5];
    assert!(!answer_numbers(&image, &mut heap, 10, &mut short));
    assert!(!answer_numbers(&image, &mut heap, 10, &mut []));
    assert_eq!((heap, short), ([9; 8], [1; 5]));
    let mut long = [5; 8];
    assert!(answer_numbers(&image, &mut heap, 10, &mut long));
    assert_eq!(long, [1, 0, 0, 1, 4, 0, 5, 5]);
}

#[test]
fn readings() {
    assert_eq!(ask("01 00 00 00 00 05 00").reading(), Reading::Number(5));
    assert_eq!(ask("").reading(), Reading::None);
    assert_eq!(ran(End::Null, 1, 0).reading(), Reading::None);
}

#[test]
fn codes_there_and_back() {
    for code in (0..8 * 256).chain((0..60_000).map(|n| n * 2_237)) {
        let Some(kind) = Kind::from_code(code) else {
            assert_eq!(code % 8, 0);
            continue;
        };
        assert_eq!(Kind::from_code(kind.code()), Some(kind));
        if code % 8 >= 6 {
            assert_eq!(kind.code(), code);
        }
    }
    assert_eq!(Kind::Int.code(), 1);
    let array = Kind::Array {
        mode: Mode::Unchecked,
        count: 3,
        of: 2,
    };
    assert_eq!(array.code(), 7 + 16 + 3 * 2_048);
}

#[test]
fn numbers_that_stand_for_nothing() {
    assert_eq!(Answer::from_numbers([2, 0, 0, 1, 0, 0]), None);
    assert_eq!(Answer::from_numbers([0, 11, 0, 0, 0, 0]), None);
    assert_eq!(Answer::from_numbers([1, 6, 0, 1, 0, 0]), None);
    assert_eq!(Answer::from_numbers([1, 0, 5, 0, 0, 0]), None);
    assert_eq!(Answer::from_numbers([1, 0, 1 << 32, 1, 0, 0]), None);
}
