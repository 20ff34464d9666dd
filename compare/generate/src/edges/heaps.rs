//! Heaps that are full, in pieces, or long lists.

use super::{near, Edge};
use crate::dice::Dice;
use crate::model::short::{array, cast, cell, field, int, let_in, literal, malloc, read};
use crate::model::short::{structure, sum, variable};
use crate::model::{Cell, Checked, Model, Node, Target};

/// Cells with gaps of up to three groups of 64, and mallocs of about as many
/// words: the lowest run that is long enough may begin and end anywhere in a
/// group.
pub fn fragments(dice: &mut Dice) -> Edge {
    let most = dice.pick(&[3, 10, 40, 66, 140]).unwrap_or(3);
    let cells: Vec<Cell> = (0..dice.range(1, 12))
        .map(|_| cell(dice.range(1, most), dice.below(9), 0))
        .collect();
    let mallocs = dice.range(1, 8);
    let mut body = sized_malloc(dice, most);
    for _ in 1..mallocs {
        let next = sized_malloc(dice, most);
        body = let_in(next, body);
    }
    let mut model = Model::bare(body);
    model.cells = cells;
    let mut edge = Edge::of(&model, "heap: fragments");
    // A heap that ends within what is asked for.
    edge.last += dice.below(2) * dice.below(most);
    edge
}

fn sized_malloc(dice: &mut Dice, most: u64) -> Node {
    let count = match dice.below(3) {
        0 => near(dice, most).max(1),
        1 => near(dice, 64).max(1),
        _ => dice.range(1, most),
    };
    malloc(Target::Array { count, of: 0 })
}

/// The last word of a heap of a usual size, or the one behind it.
pub fn last_word(dice: &mut Dice) -> Edge {
    let words = dice.pick(&[1, 16, 20, 1_024, 4_096]).unwrap_or(16);
    let mut model = Model::bare(malloc(Target::Array { count: 1, of: 0 }));
    model.cells = vec![cell(near(dice, words).max(1), 5, 0)];
    let mut edge = Edge::of(&model, "heap: last word");
    edge.last = words;
    edge
}

/// A list of up to 2,048 nodes of two words, forward or reverse, whose end is
/// open, leads back into it, or leads to no node.
pub fn long_list(dice: &mut Dice) -> Edge {
    let nodes = match dice.below(3) {
        0 => near(dice, 2_048).min(2_048),
        _ => dice.range(2, 300),
    };
    let reverse = dice.once_in(2);
    let end = match dice.below(5) {
        0 => 0,
        1 => 2 * dice.below(nodes) + 1,
        2 => 1,
        3 => 2 * dice.range(1, nodes),
        _ => 2 * nodes + dice.below(2),
    };
    let cells = list_cells(nodes, reverse, end);
    let start = if reverse { 2 * nodes - 1 } else { 1 };
    let model = Model {
        structs: vec![vec![0, 1]],
        types: vec![structure(Checked, 0)],
        cells,
        root: read(field(0, literal(start, 1))),
    };
    Edge::of(&model, "heap: long list")
}

/// Node i has the words 2 i - 1, an int, and 2 i, a pointer to the next node;
/// the last one's, or in reverse the first one's, is `end`.
pub fn list_cells(nodes: u64, reverse: bool, end: u64) -> Vec<Cell> {
    let mut cells = Vec::new();
    for node in 1..=nodes {
        let next = match reverse {
            false if node == nodes => end,
            false => 2 * node + 1,
            true if node == 1 => end,
            true => 2 * node - 3,
        };
        cells.push(cell(1, node % 128, 0));
        cells.push(cell(1, next, 1));
    }
    cells
}

/// Pointers to arrays that overlap, in an array of pointers; one of them may
/// reach a word too far.
pub fn overlapping_arrays(dice: &mut Dice) -> Edge {
    let pointers = dice.range(2, 200);
    let count = dice.range(1, 150);
    let ints = pointers + count - 1 - dice.below(2);
    let mut cells = Vec::new();
    for place in 0..pointers {
        cells.push(cell(1, pointers + 1 + place, 1));
    }
    for place in 0..ints {
        cells.push(cell(1, place % 100, 0));
    }
    let model = Model {
        structs: vec![],
        types: vec![array(Checked, count, 0), array(Checked, pointers, 1)],
        cells,
        root: read(sum(literal(1, 2), int(dice.below(pointers)))),
    };
    Edge::of(&model, "heap: overlapping arrays")
}

/// A malloc of the whole of a large heap, or of a word more.
pub fn whole_heap(dice: &mut Dice) -> Edge {
    let words = dice.pick(&[1_024, 4_096]).unwrap_or(1_024);
    let count = near(dice, words);
    let whole = malloc(Target::Array { count, of: 0 });
    let last = sum(variable(0), int(near(dice, count)));
    let mut model = Model::bare(let_in(whole, read(last)));
    if dice.once_in(3) {
        model.cells = vec![cell(near(dice, words).max(1), 1, 0)];
    }
    let mut edge = Edge::of(&model, "heap: whole heap");
    edge.last = words;
    edge
}

/// A tree of sums of casts of mallocs, which fills the heap piece by piece.
pub fn many_mallocs(dice: &mut Dice) -> Edge {
    let leaves = dice.range(10, 600);
    let root = malloc_tree(dice, leaves);
    let mut model = Model::bare(root);
    for _ in 0..dice.below(200) {
        model.cells.push(cell(dice.range(1, 4), 0, 0));
    }
    let mut edge = Edge::of(&model, "heap: many mallocs");
    edge.last += 3 * leaves;
    edge
}

fn malloc_tree(dice: &mut Dice, leaves: u64) -> Node {
    if leaves <= 1 {
        let count = dice.range(1, 4);
        return cast(0, malloc(Target::Array { count, of: 0 }));
    }
    let left = malloc_tree(dice, leaves / 2);
    sum(left, malloc_tree(dice, leaves - leaves / 2))
}
