//! The worked images of 01.

use tuned::Tuned;

fn hex(text: &str) -> Vec<u8> {
    let bytes = text.split_whitespace();
    bytes
        .map(|byte| u8::from_str_radix(byte, 16).unwrap())
        .collect()
}

fn ask(text: &str, words: usize, limit: u64) -> [u64; 6] {
    let mut heap = vec![0xDEAD; 2 * words];
    Tuned::new().answer(&hex(text), &mut heap, limit).numbers()
}

const VALUE: u64 = 0;
const NULL: u64 = 1;
const BOUNDS: u64 = 2;
const ROOM: u64 = 3;
const STUCK: u64 = 4;
const MORE: u64 = 5;

const INT: u64 = 1;
const CHECKED_STRUCT_0: u64 = 4;

const P2: &str = "01 00 00 00 02 03 02 03 00 06 08 01 00 00 02 00";
const P6: &str = "01 01 01 02 00 01 00 01 00 02 01 00 00 01 01 01 00 01 01";
const P9: &str = "01 00 01 00 02 00 00 00 06 00 05 01";
const P10: &str = "01 00 01 01 00 00 00 04 06 05 01 00 09 00";

#[test]
fn worked_images() {
    let table: [(&str, [u64; 6]); 13] = [
        ("01 00 00 00 00 05 00", [1, VALUE, 5, INT, 0, 0]),
        (P2, [1, VALUE, 0, INT, 4, 0]),
        (
            "01 00 00 00 02 03 02 03 00 06 08 01 00 00 03 00",
            [1, BOUNDS, 0, INT, 4, 0],
        ),
        (
            "01 01 01 02 00 01 00 01 00 00 02 03 01 00 07 09 01 01 00 01 00",
            [1, VALUE, 1, CHECKED_STRUCT_0, 4, 0],
        ),
        (P6, [1, VALUE, 1, CHECKED_STRUCT_0, 0, 0]),
        (
            "01 01 01 02 00 01 00 01 00 02 01 00 00 01 01 00 00 01 01",
            [0, 10, 0, 0, 0, 0],
        ),
        (
            "01 00 01 00 00 00 00 07 00 00 01 00 07 00",
            [1, NULL, 0, INT, 1, 0],
        ),
        (P9, [1, BOUNDS, 0, INT, 1, 0]),
        (
            "01 00 01 00 02 00 00 00 06 00 00 01",
            [1, NULL, 0, INT, 1, 0],
        ),
        (P10, [1, STUCK, 0, INT, 1, 1]),
        ("01 00 01 01 00 00 00 06 05 01 00 09 00", [0, 9, 0, 0, 0, 0]),
        (
            "01 00 01 00 00 00 00 02 04 05 01 00 09 00 06 01 00",
            [1, STUCK, 0, INT, 3, 1],
        ),
        (
            "01 00 00 00 08 00 FF FF FF FF 0F 00 00 01 00",
            [1, VALUE, 0, INT, 1, 0],
        ),
    ];
    for (image, answer) in table {
        assert_eq!(ask(image, 16, 100_000), answer, "{image}");
    }
    assert_eq!(ask("01 00 00 00 00 85 00 00", 16, 9), [0, 2, 5, 0, 0, 0]);
    assert_eq!(ask("", 16, 9), [0, 1, 0, 0, 0, 0]);
}

#[test]
fn heaps_and_limits() {
    assert_eq!(ask(P2, 3, 100_000), [1, VALUE, 0, INT, 4, 0]);
    assert_eq!(ask(P2, 16, 3), [1, MORE, 0, INT, 3, 0]);
    assert_eq!(ask(P2, 2, 100_000), [1, ROOM, 0, INT, 1, 0]);
    assert_eq!(ask(P10, 16, 1), [1, STUCK, 0, INT, 1, 1]);
    assert_eq!(ask(P10, 16, 0), [1, MORE, 0, INT, 0, 0]);
}

#[test]
fn lent_memory() {
    let mut tuned = Tuned::new();
    let mut heap = [7; 9];
    tuned.answer(&hex(P2), &mut heap, 100);
    assert_eq!(heap, [0, 1, 0, 1, 0, 1, 0, 0, 7]);
    let mut heap = [7; 9];
    tuned.answer(&hex("02"), &mut heap, 100);
    assert_eq!(heap, [7; 9]);
    let mut long = vec![7; 8_200];
    tuned.answer(&hex(P6), &mut long, 100);
    assert_eq!(long[..5], [0, 1, 1, 4, 0]);
    assert!(long[5..8_192].iter().all(|number| *number == 0));
    assert_eq!(long[8_192..], [7; 8]);
}
