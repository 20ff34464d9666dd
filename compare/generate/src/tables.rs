//! Random structs and pointer types.

use crate::dice::Dice;
use crate::model::{Checked, Kind, Mode, Target, Unchecked};

/// Kind 0 is int; the others are the image's type list.
#[derive(Clone, Debug)]
pub struct Tables {
    pub structs: Vec<Vec<u64>>,
    pub kinds: Vec<Kind>,
}

impl Tables {
    /// The word type number of a kind, if the list has it.
    pub fn number(&self, kind: Kind) -> Option<u64> {
        let place = self.kinds.iter().position(|known| *known == kind)?;
        Some(place as u64)
    }

    pub fn kind(&self, number: u64) -> Kind {
        let kind = self.kinds.get(number as usize);
        kind.copied().unwrap_or(Kind::Int)
    }

    /// The word type numbers of a target's words. Arrays are cut at `most`
    /// words: nobody lays out more here.
    pub fn words(&self, target: Target, most: u64) -> Vec<u64> {
        match target {
            Target::Word(of) => vec![of],
            Target::Struct(of) => self.fields(of).to_vec(),
            Target::Array { count, of } => vec![of; count.min(most) as usize],
        }
    }

    pub fn size(&self, target: Target) -> u64 {
        match target {
            Target::Word(_) => 1,
            Target::Struct(of) => self.fields(of).len() as u64,
            Target::Array { count, .. } => count,
        }
    }

    pub fn fields(&self, of: u64) -> &[u64] {
        self.structs.get(of as usize).map_or(&[], Vec::as_slice)
    }

    /// Whether a leaf of this kind can be written: a literal needs a number,
    /// a malloc a checked pointer to at least one word.
    pub fn can_be_leaf(&self, kind: Kind) -> bool {
        let allocated = match kind {
            Kind::Pointer(Checked, target) => self.size(target) > 0,
            _ => false,
        };
        allocated || self.number(kind).is_some()
    }

    /// Some kind of the list, int included.
    pub fn any(&self, dice: &mut Dice) -> Kind {
        dice.pick(&self.kinds).unwrap_or(Kind::Int)
    }
}

/// Tables with at most so many structs and types.
pub fn tables(dice: &mut Dice, structs: u64, types: u64) -> Tables {
    let structs = dice.below(structs + 1);
    let types = dice.below(types + 1);
    let mut kinds = vec![Kind::Int];
    // Most structs get a checked pointer of their own early, so that lists and
    // trees come up often.
    for of in 0..structs {
        if !dice.once_in(4) {
            kinds.push(Kind::Pointer(Checked, Target::Struct(of)));
        }
    }
    for _ in 0..types {
        let kind = some_kind(dice, structs, kinds.len() as u64);
        if !kinds.contains(&kind) && kinds.len() < 256 {
            kinds.push(kind);
        }
    }
    let structs = (0..structs)
        .map(|_| fields(dice, kinds.len() as u64))
        .collect();
    Tables { structs, kinds }
}

fn some_mode(dice: &mut Dice) -> Mode {
    if dice.once_in(3) {
        Unchecked
    } else {
        Checked
    }
}

fn some_kind(dice: &mut Dice, structs: u64, known: u64) -> Kind {
    let mode = some_mode(dice);
    let of = dice.below(known);
    let target = match dice.below(5) {
        0 | 1 => Target::Word(of),
        2 if structs > 0 => Target::Struct(dice.below(structs)),
        _ => Target::Array {
            count: element_count(dice),
            of,
        },
    };
    Kind::Pointer(mode, target)
}

fn element_count(dice: &mut Dice) -> u64 {
    match dice.below(16) {
        0 => 0,
        1 => dice.range(7, 20),
        2 => dice.pick(&[63, 64, 65, 127, 128, 65_535]).unwrap_or(1),
        _ => dice.range(1, 6),
    }
}

fn fields(dice: &mut Dice, known: u64) -> Vec<u64> {
    let count = match dice.below(12) {
        0 => dice.range(5, 16),
        _ => dice.range(1, 4),
    };
    (0..count).map(|_| dice.below(known)).collect()
}
