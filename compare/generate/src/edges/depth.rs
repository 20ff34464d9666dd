//! Scripts that nest 62 to 65 deep, through every kind of node.

use super::{near, Edge};
use crate::dice::Dice;
use crate::model::short::{assign, cast, cell, int, let_in, literal, read, sum};
use crate::model::short::{unchecked, variable, word};
use crate::model::{Checked, Model, Node, Unchecked};

/// `wrap` put around a node until it is this deep.
fn nested(depth: u64, leaf: Node, wrap: impl Fn(Node) -> Node) -> Node {
    (1..depth).fold(leaf, |node, _| wrap(node))
}

pub fn unary(dice: &mut Dice) -> Edge {
    let depth = near(dice, 64);
    let blocks = dice.once_in(2);
    let wrap = move |node| {
        if blocks {
            unchecked(node)
        } else {
            cast(0, node)
        }
    };
    Edge::of(&Model::bare(nested(depth, int(7), wrap)), "depth: unary")
}

/// Lets through their bodies or through their bound parts. The leaf uses the
/// outermost let, or the one that isn't there.
pub fn lets(dice: &mut Dice) -> Edge {
    let depth = near(dice, 64);
    let root = if dice.once_in(3) {
        nested(depth, int(3), |node| let_in(node, variable(0)))
    } else {
        let lets = depth.saturating_sub(1);
        let out = (lets + dice.below(2)).saturating_sub(1);
        nested(depth, variable(out), |node| let_in(int(5), node))
    };
    Edge::of(&Model::bare(root), "depth: lets")
}

pub fn sums(dice: &mut Dice) -> Edge {
    let depth = near(dice, 64);
    let left = dice.once_in(2);
    let wrap = move |node| {
        if left {
            sum(node, int(2))
        } else {
            sum(int(u32::MAX.into()), node)
        }
    };
    Edge::of(&Model::bare(nested(depth, int(7), wrap)), "depth: sums")
}

/// Assigns through their value parts, all to the same word.
pub fn assigns(dice: &mut Dice) -> Edge {
    let depth = near(dice, 64);
    let root = nested(depth, int(7), |node| assign(literal(1, 1), node));
    let model = Model {
        structs: vec![],
        types: vec![word(Checked, 0)],
        cells: vec![cell(1, 0, 0)],
        root,
    };
    Edge::of(&model, "depth: assigns")
}

/// Reads through pointers to pointers: word a holds the address a + 1, and its
/// type is one pointer less than that of the word before. Unchecked pointers
/// need a block around, which counts as depth too.
pub fn reads(dice: &mut Dice) -> Edge {
    let reads = near(dice, 63);
    let mode = if dice.once_in(2) { Checked } else { Unchecked };
    let types = (0..reads).map(|of| word(mode, of)).collect();
    let cells = (1..=reads).map(|address| {
        let of = reads - address;
        cell(1, if of == 0 { 42 } else { address + 1 }, of)
    });
    let chain = nested(reads + 1, literal(1, reads), read);
    let root = match mode {
        Checked => chain,
        Unchecked => unchecked(chain),
    };
    let model = Model {
        structs: vec![],
        types,
        cells: cells.collect(),
        root,
    };
    Edge::of(&model, "depth: reads")
}
