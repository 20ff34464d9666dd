//! Both sides of every limit of the format.

mod common;
use common::*;
use second::{answer, Answer, End};

const FIVE: Answer = Answer::Ran(second::Outcome {
    end: End::Value {
        value: 5,
        kind: second::Kind::Int,
    },
    steps: 0,
    first: 0,
});

#[test]
fn structs() {
    let with = |count: usize| image(&vec![vec![0]; count], &[], &[], int(5));
    assert_eq!(ask(&with(0)), FIVE);
    assert_eq!(ask(&with(32)), FIVE);
    assert_eq!(ask(&with(33)), refused(4, 1));
    assert_eq!(ask(&hex("01 21")), refused(4, 1));
}

fn many_types(count: u64) -> Vec<Bytes> {
    (0..count).map(|size| c(to_array(size, 0))).collect()
}

#[test]
fn types() {
    let with = |count| image(&[], &many_types(count), &[], int(5));
    assert_eq!(ask(&with(255)), FIVE);
    assert_eq!(ask(&with(256)), refused(4, 2));
    assert_eq!(ask(&hex("01 00 80 02")), refused(4, 2));
    // The last type of 255 is c.array.254.0; its number takes two bytes.
    let last = image(&[], &many_types(255), &[], lit(0, 255));
    assert_eq!(ask(&last), value(0, array(C, 254, 0), 0, 0));
    let beyond = image(&[], &many_types(255), &[], lit(0, 256));
    assert_eq!(ask(&beyond), refused(5, beyond.len() - 2));
}

#[test]
fn a_type_entry_may_name_the_one_before_up_to_the_last() {
    // A chain of 255: each points to the one before.
    let chain: Vec<Bytes> = (0..255).map(|of| c(to_word(of))).collect();
    assert_eq!(
        ask(&image(&[], &chain, &[], lit(0, 255))),
        value(0, word(C, 254), 0, 0)
    );
}

#[test]
fn fields() {
    let with = |count: usize| image(&[vec![0; count]], &[], &[], int(5));
    assert_eq!(ask(&with(1)), FIVE);
    assert_eq!(ask(&with(16)), FIVE);
    assert_eq!(ask(&with(17)), refused(4, 3));
    assert_eq!(ask(&with(0)), refused(4, 3));
    // In the second struct.
    let second = image(&[vec![0; 3], vec![0; 17]], &[], &[], int(5));
    assert_eq!(ask(&second), refused(4, 7));
}

#[test]
fn elements() {
    let entry = |count| image(&[], &[c(to_array(count, 0))], &[], int(5));
    assert_eq!(ask(&entry(0)), FIVE);
    assert_eq!(ask(&entry(65_535)), FIVE);
    assert_eq!(ask(&entry(65_536)), refused(4, 5));
    let node = |count| bare(malloc(to_array(count, 0)));
    assert_eq!(ask(&node(65_535)), ran(End::Room, 1, 0));
    assert_eq!(ask(&node(65_536)), refused(4, 6));
    // The count is judged before the word type is read.
    assert_eq!(ask(&hex("01 00 01 00 02 80 80 04")), refused(4, 5));
}

#[test]
fn cells() {
    let with = |count: usize| image(&[], &[], &vec![(1, 0, 0); count], int(5));
    assert_eq!(ask_in(&with(4_096), 4_096), FIVE);
    assert_eq!(ask_in(&with(4_097), 4_096), refused(4, 3));
    // The count is judged before any gap, also for a small W.
    assert_eq!(ask_in(&with(4_097), 0), refused(4, 3));
    assert_eq!(ask_in(&with(4_096), 4_095), refused(7, 5 + 3 * 4_095));
}

#[test]
fn words() {
    let at = |address| image(&[], &[], &[(address, 7, 0)], int(5));
    assert_eq!(ask_in(&at(4_096), 4_096), FIVE);
    assert_eq!(ask_in(&at(4_097), 4_096), refused(7, 4));
    // A longer heap is used for its first 4,096 words.
    assert_eq!(ask_in(&at(4_096), 5_000), FIVE);
    assert_eq!(ask_in(&at(4_097), 5_000), refused(7, 4));
    assert_eq!(answer(&at(4_096), 5_000, 10).1.unwrap().len(), 4_096);
    let all = bare(malloc(to_array(4_096, 0)));
    assert_eq!(ask_in(&all, 5_000), value(1, array(C, 4_096, 0), 1, 0));
    assert_eq!(ask_in(&all, 4_095), ran(End::Room, 1, 0));
    let more = bare(malloc(to_array(4_097, 0)));
    assert_eq!(ask_in(&more, 5_000), ran(End::Room, 1, 0));
}

/// A sum tree with this many leaves, as flat as can be.
fn tree(leaves: usize) -> Bytes {
    if leaves == 1 {
        return int(1);
    }
    sum(tree(leaves / 2), tree(leaves - leaves / 2))
}

#[test]
fn nodes() {
    // 1,024 leaves and 1,023 sums: 2,047 nodes.
    assert_eq!(ask(&bare(tree(1_024))), value(1_024, INT, 1_023, 0));
    let most = bare(unchecked(tree(1_024)));
    assert_eq!(ask(&most), value(1_024, INT, 1_024, 1));
    // The node too many is the last literal: its code.
    let more = bare(unchecked(unchecked(tree(1_024))));
    assert_eq!(ask(&more), refused(4, more.len() - 3));
    let wider = bare(tree(1_025));
    assert_eq!(ask(&wider), refused(4, wider.len() - 3));
    // An unknown code there is fault 4 all the same; a bad number is fault 2.
    let mut unknown = more.clone();
    let place = unknown.len() - 3;
    unknown[place] = 10;
    assert_eq!(ask(&unknown), refused(4, place));
    let bad = join(&[more[..place].to_vec(), hex("80 00")]);
    assert_eq!(ask(&bad), refused(2, place));
    assert_eq!(ask(&more[..place]), refused(1, place));
}

/// What is written before the nested part for each place a part can have, what
/// behind it, and how many bytes stand before the node's first part.
fn nests() -> Vec<(&'static str, Bytes, Bytes, usize)> {
    vec![
        ("let bound", n(2), int(1), 1),
        ("let body", join(&[n(2), int(1)]), vec![], 1),
        ("unchecked", n(4), vec![], 1),
        ("cast", join(&[n(5), n(0)]), vec![], 2),
        ("read", n(6), vec![], 1),
        ("assign pointer", n(7), int(1), 1),
        ("assign value", join(&[n(7), int(1)]), vec![], 1),
        ("sum left", n(8), int(1), 1),
        ("sum right", join(&[n(8), int(1)]), vec![], 1),
        ("field", join(&[n(9), n(0)]), vec![], 2),
    ]
}

fn nest(before: &Bytes, behind: &Bytes, times: usize, inner: Bytes) -> Bytes {
    join(&[before.repeat(times), inner, behind.repeat(times)])
}

#[test]
fn depth() {
    for (name, before, behind, to_part) in nests() {
        // 63 nodes around a literal: the literal is at depth 64.
        let fits = bare(nest(&before, &behind, 63, int(5)));
        match ask(&fits) {
            Answer::Refused(refusal) => assert_eq!(refusal.number, 9, "{name}"),
            Answer::Ran(outcome) => assert_eq!(outcome.steps, 63, "{name}"),
        }
        // With 64 the last of them is at depth 64, its first part at 65.
        let deep = bare(nest(&before, &behind, 64, int(5)));
        let place = 4 + 63 * before.len() + to_part;
        assert_eq!(ask(&deep), refused(4, place), "{name}");
        // Fault 4 before 5, but behind 1 and 2.
        let begun = &deep[..place];
        assert_eq!(ask(begun), refused(1, place), "{name}");
        for (code, fault) in [("0A", 4), ("FF FF FF FF 0F", 4), ("80 00", 2)] {
            let other = join(&[begun.to_vec(), hex(code)]);
            assert_eq!(ask(&other), refused(fault, place), "{name} {code}");
        }
    }
}

#[test]
fn depth_of_a_later_part() {
    // 62 blocks, then a node of two parts at depth 63: its right part is a
    // block at depth 64 (fine) around a literal at depth 65.
    for code in [2, 7, 8] {
        let part = |right: Bytes| join(&[n(4).repeat(62), n(code), int(1), right]);
        let fits = bare(part(int(1)));
        assert!(!matches!(ask(&fits), Answer::Refused(r) if r.number < 9));
        let deep = bare(part(unchecked(int(1))));
        assert_eq!(ask(&deep), refused(4, 4 + 62 + 1 + 3 + 1));
    }
}

#[test]
fn depth_and_variables_63_lets_out() {
    let before = join(&[n(2), int(1)]);
    let inner = |out| nest(&before, &vec![], 63, var(out));
    assert_eq!(ask(&bare(inner(62))), value(1, INT, 63, 0));
    assert_eq!(ask(&bare(inner(63))), refused(5, 4 + 63 * 4 + 1));
}

/// An image of exactly this many bytes (from 16,376 on, for a few): cells of 7
/// bytes, the last ones shorter.
fn sized(bytes: usize) -> Bytes {
    // Head 01 00 00, C in two bytes, literal in three: 8 bytes besides cells.
    let sevens = (bytes - 8) / 7 - 1;
    let rest = (bytes - 8) - 7 * sevens; // 7 to 13: two cells of at least 3
    let mut cells = vec![(1, 4_294_967_295, 0); sevens];
    let first = rest - 3 - 2; // bytes of the value in the last cell but one
    cells.push((1, 1 << (7 * (first.min(5) - 1)), 0));
    cells.push((1, 1 << (7 * (rest - first.min(5) - 4 - 1)), 0));
    image(&[], &[], &cells, int(5))
}

#[test]
fn bytes() {
    let fits = sized(16_384);
    assert_eq!(fits.len(), 16_384);
    assert_eq!(ask_in(&fits, 4_096), FIVE);
    let long = sized(16_385);
    assert_eq!(long.len(), 16_385);
    assert_eq!(ask_in(&long, 4_096), refused(4, 0));
    // Judged before anything is read.
    assert_eq!(ask(&vec![0; 16_384]), refused(3, 0));
    assert_eq!(ask(&vec![0; 16_385]), refused(4, 0));
    assert_eq!(ask(&vec![0x80; 16_385]), refused(4, 0));
    assert_eq!(ask(&vec![0xFF; 100_000]), refused(4, 0));
}

#[test]
fn numbers() {
    for number in [0, 1, 127, 128, 16_383, 16_384, 2_097_151, 2_097_152] {
        assert_eq!(ask(&bare(int(number))), value(number, INT, 0, 0));
    }
    for number in [268_435_455, 268_435_456, 4_294_967_295] {
        assert_eq!(ask(&bare(int(number))), value(number, INT, 0, 0));
    }
    assert_eq!(n(4_294_967_295), hex("FF FF FF FF 0F"));
    assert_eq!(ask(&bare(int(4_294_967_296))), refused(2, 5));
}
