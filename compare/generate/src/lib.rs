//! Images for the comparison, from a seed: well-typed scripts over random
//! tables and cells, scripts with one broken rule, byte mutations, images near
//! every limit, and noise. The same seed and index always give the same image.
#![forbid(unsafe_code)]

mod broken;
mod dice;
mod edges;
mod ground;
pub mod model;
mod mutate;
mod outline;
mod script;
mod settings;
mod tables;
mod walk;
mod write;

pub use broken::broken;
pub use dice::Dice;
pub use mutate::mutated;
pub use outline::{outline, Outline};
pub use settings::{before, settings, Before, Limit, Setting};
pub use write::{bytes, Role};

pub mod parts {
    //! Pieces of images that others build larger ones from.
    pub use crate::edges::{list_cells, tree};
}

use model::Model;
use script::{Maker, Style};

/// How an image was made.
#[derive(Clone, Copy, Debug, PartialEq, Eq)]
pub enum Family {
    Typed,
    Broken,
    Mutated,
    Edge,
    Noise,
}

impl Family {
    pub const ALL: [Family; 5] = [
        Family::Typed,
        Family::Broken,
        Family::Mutated,
        Family::Edge,
        Family::Noise,
    ];

    pub fn name(self) -> &'static str {
        match self {
            Family::Typed => "typed",
            Family::Broken => "broken",
            Family::Mutated => "mutated",
            Family::Edge => "edge",
            Family::Noise => "noise",
        }
    }
}

/// An image and how to ask it.
#[derive(Clone, Debug)]
pub struct Case {
    pub image: Vec<u8>,
    pub family: Family,
    /// What was done to it.
    pub label: &'static str,
    pub settings: Vec<Setting>,
}

/// The image with this index in the run with this seed.
pub fn case(seed: u64, index: u64) -> Case {
    let mut dice = Dice::for_image(seed, index);
    let (image, last, family, label) = some_image(&mut dice);
    let settings = settings::settings(&mut dice, last);
    Case {
        image,
        family,
        label,
        settings,
    }
}

fn some_image(dice: &mut Dice) -> (Vec<u8>, u64, Family, &'static str) {
    match dice.below(1_000) {
        0..=419 => {
            let model = typed(dice);
            let last = model.last();
            (write::bytes(&model), last, Family::Typed, "typed")
        }
        420..=719 => {
            let model = typed(dice);
            let (image, label) = broken::broken(dice, &model);
            (image, model.last(), Family::Broken, label)
        }
        720..=899 => {
            let (image, last) = to_mutate(dice);
            let image = mutate::mutated(dice, &image);
            (image, last, Family::Mutated, "mutated")
        }
        900..=959 => {
            let edge = edges::small_edge(dice);
            (edge.image, edge.last, Family::Edge, edge.label)
        }
        960..=969 => {
            let edge = edges::large_edge(dice);
            (edge.image, edge.last, Family::Edge, edge.label)
        }
        _ => (mutate::noise(dice), 2, Family::Noise, "noise"),
    }
}

fn to_mutate(dice: &mut Dice) -> (Vec<u8>, u64) {
    if dice.once_in(8) {
        let edge = edges::small_edge(dice);
        return (edge.image, edge.last);
    }
    let model = typed(dice);
    (write::bytes(&model), model.last())
}

/// A well-typed image.
pub fn typed(dice: &mut Dice) -> Model {
    let tables = match dice.below(8) {
        0 => tables::tables(dice, 0, 2),
        1 => tables::tables(dice, 8, 40),
        _ => tables::tables(dice, 3, 9),
    };
    let words = match dice.below(16) {
        0 => 0,
        1 => dice.range(60, 300),
        _ => dice.range(1, 20),
    };
    let careful = !dice.once_in(3);
    let null = if careful {
        dice.pick(&[0, 60]).unwrap_or(0)
    } else {
        dice.pick(&[12, 5, 2]).unwrap_or(5)
    };
    let ground = ground::ground(dice, &tables, words, null);
    let style = if careful {
        careful_style(dice)
    } else {
        loose_style(dice)
    };
    let budget = some_budget(dice);
    let depth = match dice.below(12) {
        0 => dice.range(12, 50),
        1 => dice.range(0, 3),
        _ => dice.range(3, 14),
    };
    let mut maker = Maker::new(dice, &tables, &ground, style, budget);
    let root = maker.script(depth);
    Model {
        structs: tables.structs.clone(),
        types: tables.kinds.iter().skip(1).copied().collect(),
        cells: ground.cells(),
        root,
    }
}

/// Little goes wrong, so that long runs come to their end.
fn careful_style(dice: &mut Dice) -> Style {
    Style {
        outside: dice.pick(&[0, 0, 60]).unwrap_or(0),
        wild: dice.pick(&[0, 0, 8]).unwrap_or(0),
        large: dice.pick(&[0, 0, 60]).unwrap_or(0),
        careful: true,
    }
}

fn loose_style(dice: &mut Dice) -> Style {
    Style {
        outside: dice.pick(&[0, 12, 3]).unwrap_or(0),
        wild: dice.pick(&[0, 2, 1]).unwrap_or(1),
        large: dice.pick(&[0, 0, 20]).unwrap_or(0),
        careful: false,
    }
}

fn some_budget(dice: &mut Dice) -> i64 {
    let most = match dice.below(40) {
        0 => 1_900,
        1..=4 => 300,
        5..=19 => 90,
        _ => 30,
    };
    dice.range(1, most) as i64
}
