//! Values near 2^32 and array counts that fall.

use super::{near, Edge};
use crate::dice::Dice;
use crate::model::short::{array, assign, cast, cell, field, int, let_in, literal, malloc};
use crate::model::short::{read, structure, sum, unchecked, variable, word};
use crate::model::{Checked, Model, Target, Unchecked};

const MOST: u64 = u32::MAX as u64;

/// Sums that wrap, or just don't.
pub fn wrapping(dice: &mut Dice) -> Edge {
    let left = MOST - dice.below(3);
    let root = sum(
        sum(int(left), int(dice.below(4))),
        int(MOST - dice.below(2)),
    );
    Edge::of(&Model::bare(root), "value: wrapping")
}

/// An index at the end of an array, also one that wraps back into it: "Taking
/// the sum's wrapped value as in bounds because it is a defined address".
pub fn falling_count(dice: &mut Dice) -> Edge {
    let count = dice.range(1, 5);
    let mode = if dice.once_in(3) { Unchecked } else { Checked };
    let start = dice.range(1, 3);
    let index = match dice.below(4) {
        0 => near(dice, count),
        1 => MOST + 1 - dice.range(1, start + 1),
        2 => near(dice, 65_536),
        _ => near(dice, 65_536 + count),
    };
    let pointer = sum(literal(start, 1), int(index));
    let access = if dice.once_in(2) {
        read(pointer)
    } else {
        assign(pointer, int(77))
    };
    let cells = 1..start + count;
    let model = Model {
        structs: vec![],
        types: vec![array(mode, count, 0)],
        cells: cells.map(|address| cell(1, address, 0)).collect(),
        root: unchecked(access),
    };
    Edge::of(&model, "value: falling count")
}

/// Field addresses at 2^32 - 1, through unchecked pointers and through ones
/// that a block cast to checked, and with field numbers that the struct at the
/// end doesn't have.
pub fn field_wrap(dice: &mut Dice) -> Edge {
    let value = match dice.below(3) {
        0 => 0,
        1 => MOST - dice.below(2),
        _ => dice.range(1, 4),
    };
    let of = dice.range(1, 2);
    let number = dice.below(4);
    let struct_pointer = match dice.below(4) {
        // The word may hold another kind than the type says.
        0 => read(cast(3, int(dice.range(1, 5)))),
        1 => malloc(Target::Struct(0)),
        _ => cast(of, int(value)),
    };
    let address = field(number, struct_pointer);
    let body = match dice.below(3) {
        0 => address,
        1 => read(address),
        _ => let_in(address, read(variable(0))),
    };
    let model = Model {
        structs: vec![vec![0, 0, 0], vec![0]],
        types: vec![
            structure(Checked, 0),
            structure(Unchecked, 0),
            word(Unchecked, 1),
        ],
        cells: vec![cell(1, 3, 0), cell(1, 1, 1), cell(1, 9, 2), cell(1, 0, 1)],
        root: unchecked(body),
    };
    Edge::of(&model, "value: field wrap")
}
