//! Values whose kind isn't the one that typing found: inside a block, a word is
//! read through a pointer of the wrong type, and what was read is then used by
//! each operation. Every kind meets every operation here.

use super::Edge;
use crate::dice::Dice;
use crate::model::short::{array, assign, cast, cell, field, int, let_in, read};
use crate::model::short::{structure, sum, unchecked, variable, word};
use crate::model::{Checked, Kind, Model, Node, Unchecked};

/// What cells hold: word types 0 to 8.
const HELD: u64 = 9;

/// Word types 9 and on are unchecked pointers to those.
fn types() -> Vec<Kind> {
    let mut types = vec![
        word(Checked, 0),
        structure(Checked, 0),
        structure(Unchecked, 0),
        structure(Checked, 1),
        array(Checked, 3, 0),
        array(Unchecked, 3, 0),
        array(Checked, 0, 0),
        word(Checked, 1),
    ];
    types.extend((0..HELD).map(|of| word(Unchecked, of)));
    types
}

pub fn lying_kinds(dice: &mut Dice) -> Edge {
    let cells = (0..dice.range(1, 8)).map(|_| {
        let gap = if dice.once_in(8) { 2 } else { 1 };
        let value = match dice.below(4) {
            0 => 0,
            1 => dice.below(1 << 32),
            _ => dice.range(1, 9),
        };
        cell(gap, value, dice.below(HELD))
    });
    let cells = cells.collect();
    let used = use_of_lie(dice);
    let root = match dice.below(4) {
        // The lie leaves the block and is used in checked code.
        0 => let_in(unchecked(lie(dice, 1)), read(variable(0))),
        1 => let_in(unchecked(lie(dice, 2)), field(dice.below(3), variable(0))),
        _ => unchecked(used),
    };
    let model = Model {
        structs: vec![vec![0, 1, 0], vec![0]],
        types: types(),
        cells,
        root,
    };
    Edge::of(&model, "value: lying kinds")
}

/// A word read as if it were of type `of`.
fn lie(dice: &mut Dice, of: u64) -> Node {
    read(cast(HELD + of, int(dice.range(0, 10))))
}

fn use_of_lie(dice: &mut Dice) -> Node {
    match dice.below(8) {
        0 => read(lie(dice, 1)),
        1 => assign(lie(dice, 1), lie(dice, 0)),
        2 => sum(lie(dice, 0), lie(dice, 0)),
        3 => {
            let of = dice.pick(&[5, 6, 7]).unwrap_or(5);
            read(sum(lie(dice, of), lie(dice, 0)))
        }
        4 => {
            let of = dice.pick(&[5, 6, 7]).unwrap_or(5);
            assign(sum(lie(dice, of), int(dice.below(4))), int(5))
        }
        5 => {
            let of = dice.pick(&[2, 3]).unwrap_or(2);
            field(dice.below(3), lie(dice, of))
        }
        6 => read(field(0, lie(dice, 4))),
        _ => read(read(lie(dice, 8))),
    }
}
