//! Mutations that know how an image is written, beside the fuzzer's own, which
//! know bytes, the dictionary and the numbers that were compared.

use crate::model::model;
use crate::place::mended;
use generate::model::{Model, Node};
use generate::{broken, bytes, case, mutated, Dice};

/// What is to be done to an image.
pub enum Change {
    /// The fuzzer's own mutations of bytes.
    Bytes,
    /// This image instead.
    Image(Vec<u8>),
}

/// Half are the fuzzer's own; of the others most change one node, cell or
/// number of the image or the number that it is refused at, and a few are images
/// made anew.
pub fn changed(dice: &mut Dice, image: &[u8]) -> Change {
    let image = match dice.below(64) {
        0..=31 => None,
        32..=35 => Some(mutated(dice, image)),
        36 => Some(case(dice.roll(), dice.roll()).image),
        37..=45 => mended(dice, image),
        _ => model(image).map(|model| rewritten(dice, &model)),
    };
    image.map_or(Change::Bytes, Change::Image)
}

/// The image with one thing changed.
fn rewritten(dice: &mut Dice, model: &Model) -> Vec<u8> {
    if dice.once_in(3) {
        let mut model = model.clone();
        repeat(dice, &mut model.root);
        return bytes(&model);
    }
    let (image, _) = broken(dice, model);
    image
}

/// A node is written a second time, for another one.
fn repeat(dice: &mut Dice, root: &mut Node) {
    let donor = root.at(dice.index(root.count()));
    put(dice, root, donor);
}

/// Puts a node for some other one.
fn put(dice: &mut Dice, root: &mut Node, donor: Option<Node>) {
    let number = dice.index(root.count());
    if let (Some(place), Some(donor)) = (root.at_mut(number), donor) {
        *place = donor;
    }
}

/// An image with something of two.
pub fn crossed(dice: &mut Dice, one: &[u8], two: &[u8]) -> Vec<u8> {
    match (model(one), model(two)) {
        (Some(one), Some(two)) => bytes(&grafted(dice, one, two)),
        _ => spliced(dice, one, two),
    }
}

/// The first model with a part of the second one.
fn grafted(dice: &mut Dice, mut one: Model, two: Model) -> Model {
    match dice.below(8) {
        0 => one.root = two.root,
        1 => one.cells = two.cells,
        2 => one.structs = two.structs,
        3 => one.types.extend(two.types),
        4 => one.cells.extend(two.cells),
        _ => {
            let donor = two.root.at(dice.index(two.root.count()));
            put(dice, &mut one.root, donor);
        }
    }
    one
}

/// The beginning of one and the end of the other.
fn spliced(dice: &mut Dice, one: &[u8], two: &[u8]) -> Vec<u8> {
    let head = &one[..dice.index(one.len() + 1)];
    let tail = &two[dice.index(two.len() + 1)..];
    [head, tail].concat()
}
