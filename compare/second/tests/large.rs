//! Large images: long lists, full heaps, many steps.

mod common;
use common::*;
use second::{answer, stays_typed, Answer, End};
use std::time::{Duration, Instant};

/// Quick enough even in a slow build on a busy machine.
fn quick(task: impl FnOnce()) {
    let begin = Instant::now();
    task();
    assert!(begin.elapsed() < Duration::from_secs(20));
}

/// A list of nodes (int, c.struct.0), node i at 2i - 1, the last one leading to
/// `last`.
fn list(nodes: u64, last: u64) -> Vec<(u64, u64, u64)> {
    let mut cells = Vec::new();
    for node in 1..=nodes {
        let next = if node == nodes { last } else { 2 * node + 1 };
        cells.push((1, 0, 0));
        cells.push((1, next, 1));
    }
    cells
}

fn over(cells: &[(u64, u64, u64)], expr: Bytes) -> Answer {
    let image = image(&[vec![0, 1]], &[c(to_struct(0))], cells, expr);
    assert!(image.len() <= 16_384);
    assert_eq!(stays_typed(&image, 4_096, 1_000), Ok(()));
    answer(&image, 4_096, 1_000).0
}

#[test]
fn lists_of_2_048_nodes() {
    quick(|| {
        let open = list(2_048, 0);
        assert_eq!(over(&open, lit(1, 1)), value(1, strukt(C, 0), 0, 0));
        let cyclic = list(2_048, 1);
        assert_eq!(over(&cyclic, lit(1, 1)), value(1, strukt(C, 0), 0, 0));
        assert_eq!(
            over(&cyclic, lit(2_047, 1)),
            value(2_047, strukt(C, 0), 0, 0)
        );
        // The last node leads to a word inside a node: its first word is no int.
        let bad = list(2_048, 2);
        assert_eq!(over(&bad, lit(1, 1)), refused(10, 0));
        // The last node leads past the heap.
        let past = list(2_048, 4_097);
        assert_eq!(over(&past, lit(1, 1)), refused(10, 0));
        assert_eq!(over(&past, lit(0, 1)), value(0, strukt(C, 0), 0, 0));
    });
}

#[test]
fn many_literals_over_a_long_list() {
    // 512 lets can't nest, so a tree of sums of casts of literals.
    fn tree(leaves: u64, first: u64) -> Bytes {
        if leaves == 1 {
            return cast(0, lit(2 * (first % 1_000) + 1, 1));
        }
        let half = leaves / 2;
        sum(tree(half, first), tree(leaves - half, first + half))
    }
    quick(|| {
        let cells = list(1_800, 1);
        // 500 casts and 499 sums; the numbers 1, 3, ..., 999 add up to 250,000.
        assert_eq!(over(&cells, tree(500, 0)), value(250_000, INT, 999, 0));
    });
}

#[test]
fn arrays_over_arrays() {
    // 1,300 words hold array pointers to the second 1,300, which hold array
    // pointers to the third 1,300, all ints.
    let k = 1_300;
    let mut cells = Vec::new();
    for group in 0..3 {
        for _ in 0..k {
            match group {
                0 => cells.push((1, k + 1, 2)),
                1 => cells.push((1, 2 * k + 1, 1)),
                _ => cells.push((1, 7, 0)),
            }
        }
    }
    let types = [c(to_array(k, 0)), c(to_array(k, 1)), c(to_array(k, 2))];
    let image = image(&[], &types, &cells, lit(1, 3));
    quick(|| {
        let answer = answer(&image, 4_096, 10).0;
        assert_eq!(answer, value(1, array(C, k as u16, 2), 0, 0));
    });
}

#[test]
fn shifted_array_pointers_all_looked_at() {
    // Words 1 to 1,000 hold pointers of type c.array.1000.0 to 1,001 + i, so
    // they all differ; the words 1,001 to 3,000 are ints.
    let k = 1_000;
    let mut cells = Vec::new();
    for i in 0..k {
        cells.push((1, 1_001 + i, 1));
    }
    for _ in 0..2 * k {
        cells.push((1, 7, 0));
    }
    let types = [c(to_array(k, 0)), c(to_array(k, 1))];
    let bytes = image(&[], &types, &cells, lit(1, 2));
    quick(|| {
        let yes = answer(&bytes, 4_096, 10).0;
        assert_eq!(yes, value(1, array(C, 1_000, 1), 0, 0));
        // One int fewer at the end: the last pointer covers an undefined word.
        let short = image(&[], &types, &cells[..2_998], lit(1, 2));
        assert_eq!(answer(&short, 4_096, 10).0, refused(10, 0));
        let enough = image(&[], &types, &cells[..2_999], lit(1, 2));
        assert_eq!(answer(&enough, 4_096, 10).0, yes);
    });
}

#[test]
fn many_mallocs() {
    // A tree of sums of casts of mallocs: 682 leaves of 2 nodes, 681 sums.
    fn tree(leaves: u64) -> Bytes {
        if leaves == 1 {
            return cast(0, malloc(to_array(6, 0)));
        }
        sum(tree(leaves / 2), tree(leaves - leaves / 2))
    }
    quick(|| {
        let image = bare(tree(682));
        // 6 * 682 = 4,092 words; addresses 1, 7, 13, ...: 682 + 6 * (0 + ... + 681).
        let total = 682 + 6 * (681 * 682 / 2);
        let (full, heap) = answer(&image, 4_096, 10_000);
        assert_eq!(full, value(total, INT, 3 * 682 - 1, 0));
        let defined = heap.unwrap().iter().flatten().count();
        assert_eq!(defined, 4_092);
        // One word too few for the last.
        let room = answer(&image, 4_091, 10_000).0;
        assert!(matches!(room, Answer::Ran(o) if o.end == End::Room));
    });
}

#[test]
fn a_deep_let_with_many_uses() {
    // 50 lets, then a tree of 512 uses of the outermost: 512 * 3 = 1,536.
    fn tree(leaves: u64) -> Bytes {
        if leaves == 1 {
            return var(49);
        }
        sum(tree(leaves / 2), tree(leaves - leaves / 2))
    }
    let expr = join(&[join(&[n(2), int(3)]).repeat(50), tree(512)]);
    quick(|| {
        assert_eq!(ask(&bare(expr)), value(1_536, INT, 50 + 511, 0));
    });
}
