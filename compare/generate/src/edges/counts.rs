//! Counts at their limits: nodes, structs, fields, types, cells, bytes.

use super::{near, Edge};
use crate::dice::Dice;
use crate::model::short::{array, cast, cell, field, int, let_in, literal, malloc, read};
use crate::model::short::{structure, sum, variable, word};
use crate::model::{Checked, Kind, Mode, Model, Node, Target, Unchecked};
use crate::write;

/// A tree with exactly so many nodes, of one-node leaves, sums and casts.
pub fn tree(nodes: u64, leaf: &mut impl FnMut() -> Node) -> Node {
    match nodes {
        0 | 1 => leaf(),
        2 => cast(0, leaf()),
        _ => {
            let left = (nodes - 1) / 2;
            let left_part = tree(left, leaf);
            sum(left_part, tree(nodes - 1 - left, leaf))
        }
    }
}

/// 2,046 to 2,049 nodes.
pub fn nodes(dice: &mut Dice) -> Edge {
    let count = near(dice, 2_048);
    let root = tree(count, &mut || int(dice.below(300)));
    Edge::of(&Model::bare(root), "count: nodes")
}

/// Fifty lets around a tree of uses of all of them.
pub fn lets_and_uses(dice: &mut Dice) -> Edge {
    let lets = dice.range(1, 50);
    let count = near(dice, 2_048) - 2 * lets;
    let body = tree(count, &mut || variable(dice.below(lets)));
    let root = (0..lets).fold(body, |node, number| let_in(int(number), node));
    Edge::of(&Model::bare(root), "count: lets and uses")
}

/// 31 to 33 structs, the last of them used.
pub fn structs(dice: &mut Dice) -> Edge {
    let count = near(dice, 32);
    let structs: Vec<Vec<u64>> = (0..count)
        .map(|_| vec![0; dice.range(1, 16) as usize])
        .collect();
    let of = count - dice.below(2);
    let model = Model {
        structs,
        types: vec![structure(Checked, count - 1)],
        cells: vec![],
        root: field(dice.below(16), malloc(Target::Struct(of))),
    };
    Edge::of(&model, "count: structs")
}

/// 15 to 17 fields, or none.
pub fn fields(dice: &mut Dice) -> Edge {
    let count = if dice.once_in(6) { 0 } else { near(dice, 16) };
    let model = Model {
        structs: vec![vec![0; count as usize]],
        types: vec![structure(Checked, 0)],
        cells: (0..count).map(|value| cell(1, value, 0)).collect(),
        root: read(field(near(dice, count), literal(1, 1))),
    };
    Edge::of(&model, "count: fields")
}

/// 65,534 to 65,536 elements, in an entry and in a malloc.
pub fn elements(dice: &mut Dice) -> Edge {
    let count = near(dice, 65_535);
    let root = match dice.below(3) {
        0 => malloc(Target::Array { count, of: 0 }),
        1 => read(sum(literal(0, 1), int(count))),
        _ => literal(dice.below(3), 1),
    };
    let model = Model {
        structs: vec![],
        types: vec![array(Checked, count.min(65_536 - dice.below(2)), 0)],
        cells: vec![cell(1, 7, 0), cell(1, 7, 0)],
        root,
    };
    Edge::of(&model, "count: elements")
}

/// 253 to 256 entries, no two equal or just two.
pub fn types(dice: &mut Dice) -> Edge {
    let count = near(dice, 255);
    let mut types: Vec<Kind> = (0..count).map(|own| entry(own, dice.below(4))).collect();
    if dice.once_in(2) {
        let from = dice.index(types.len());
        let to = dice.index(types.len());
        types[from.max(to)] = types[from.min(to)];
    }
    let model = Model {
        structs: vec![vec![0]],
        types,
        cells: vec![cell(1, 0, count), cell(1, 1, count - 1)],
        root: literal(0, near(dice, count + 1)),
    };
    Edge::of(&model, "count: types")
}

/// An entry that differs from those of every other number: the count or the
/// word type number says which.
fn entry(own: u64, shape: u64) -> Kind {
    let mode = |bit: u64| -> Mode {
        match bit % 2 {
            0 => Checked,
            _ => Unchecked,
        }
    };
    match shape {
        0 => word(mode(own), own),
        1 => array(Checked, own, 0),
        2 => array(Unchecked, 65_535 - own, own),
        _ => array(mode(own), 300 + own, own / 2),
    }
}

/// 4,094 to 4,097 cells; three bytes each, so they fit.
pub fn cells(dice: &mut Dice) -> Edge {
    let count = near(dice, 4_096);
    let model = Model {
        structs: vec![],
        types: vec![array(Checked, near(dice, count), 0)],
        cells: (0..count).map(|place| cell(1, place % 128, 0)).collect(),
        root: read(sum(literal(1, 1), int(dice.below(count)))),
    };
    Edge::of(&model, "count: cells")
}

/// 16,382 to 16,385 bytes.
pub fn bytes(dice: &mut Dice) -> Edge {
    let length = near(dice, 16_384);
    let mut model = Model {
        structs: vec![],
        types: vec![],
        cells: (0..dice.range(2_500, 4_000))
            .map(|_| cell(1, 1, 0))
            .collect(),
        root: int(9),
    };
    let missing = length - write::bytes(&model).len() as u64;
    lengthen(&mut model, missing);
    let mut edge = Edge::of(&model, "count: bytes");
    if dice.once_in(4) {
        // The length is judged before anything is read.
        edge.image[0] = 0;
    }
    edge
}

/// Lengthens the cells' values, up to four bytes each.
fn lengthen(model: &mut Model, missing: u64) {
    let mut missing = missing;
    for cell in &mut model.cells {
        let more = missing.min(4);
        cell.value = 1 << (7 * more);
        missing -= more;
    }
}
