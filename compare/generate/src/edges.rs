//! Images near every limit of 01.

mod counts;
mod depth;
mod heaps;
mod lies;
mod values;

use crate::dice::Dice;

/// An image's bytes, the last address that it sets, and what it is.
pub struct Edge {
    pub image: Vec<u8>,
    pub last: u64,
    pub label: &'static str,
}

impl Edge {
    fn of(model: &crate::model::Model, label: &'static str) -> Edge {
        Edge {
            image: crate::write::bytes(model),
            last: model.last(),
            label,
        }
    }
}

type Make = fn(&mut Dice) -> Edge;

/// Small and quick to answer.
const SMALL: [Make; 15] = [
    depth::unary,
    depth::lets,
    depth::sums,
    depth::assigns,
    depth::reads,
    counts::fields,
    counts::elements,
    values::wrapping,
    values::falling_count,
    values::field_wrap,
    // Three times: it has many cases.
    lies::lying_kinds,
    lies::lying_kinds,
    lies::lying_kinds,
    heaps::fragments,
    heaps::last_word,
];

/// Large; second takes up to some milliseconds for one.
const LARGE: [Make; 10] = [
    counts::nodes,
    counts::lets_and_uses,
    counts::structs,
    counts::types,
    counts::cells,
    counts::bytes,
    heaps::long_list,
    heaps::overlapping_arrays,
    heaps::whole_heap,
    heaps::many_mallocs,
];

pub fn small_edge(dice: &mut Dice) -> Edge {
    SMALL[dice.index(SMALL.len())](dice)
}

pub fn large_edge(dice: &mut Dice) -> Edge {
    LARGE[dice.index(LARGE.len())](dice)
}

/// A number near a border: one or two below, on it, one above.
fn near(dice: &mut Dice, border: u64) -> u64 {
    (border + dice.below(4)).saturating_sub(2)
}

pub use counts::tree;
pub use heaps::list_cells;
