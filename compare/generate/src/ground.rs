//! The heap cells under a script: objects laid out side by side, whose checked
//! pointers lead to each other, so that lists, cycles and shared tails arise.

use crate::dice::Dice;
use crate::model::{Cell, Checked, Kind, Target};
use crate::tables::Tables;

/// More words than this no object gets.
const MOST_OBJECT: u64 = 40;

/// And for larger targets no place is looked for.
const MOST_FITTING: u64 = 400;

#[derive(Clone, Copy, Debug)]
struct Word {
    of: u64,
    value: u64,
    /// Laid out as part of an object; other words may hold anything, since no
    /// checked pointer leads to them.
    solid: bool,
}

#[derive(Clone, Debug)]
pub struct Ground {
    /// By address; none at 0.
    words: Vec<Option<Word>>,
    /// How often a pointer is 0: once in so many.
    null: u64,
}

impl Ground {
    pub fn cells(&self) -> Vec<Cell> {
        let mut cells = Vec::new();
        let mut before = 0;
        for (address, word) in self.words.iter().enumerate() {
            if let Some(word) = word {
                cells.push(Cell {
                    gap: (address - before) as u64,
                    value: word.value,
                    of: word.of,
                });
                before = address;
            }
        }
        cells
    }

    /// How far the addresses go.
    pub fn reach(&self) -> u64 {
        self.words.len() as u64
    }

    /// Some address, defined more often than not.
    pub fn some_address(&self, dice: &mut Dice) -> u64 {
        match dice.below(12) {
            0 => 0,
            1 => u64::from(u32::MAX) - dice.below(3),
            2 => dice.below(5_000),
            _ => dice.below(self.reach() + 1),
        }
    }

    /// The addresses at which a target's words lie.
    fn fitting(&self, tables: &Tables, target: Target) -> Vec<u64> {
        let wanted = tables.words(target, MOST_FITTING);
        let whole = wanted.len() as u64 == tables.size(target);
        if wanted.is_empty() || !whole || wanted.len() >= self.words.len() {
            return Vec::new();
        }
        let starts = 1..self.words.len() - wanted.len() + 1;
        starts
            .filter(|start| self.fits(&wanted, *start))
            .map(|start| start as u64)
            .collect()
    }

    fn fits(&self, wanted: &[u64], start: usize) -> bool {
        let words = self.words.iter().skip(start);
        wanted.iter().zip(words).all(|(of, word)| match word {
            Some(word) => word.solid && word.of == *of,
            None => false,
        })
    }

    /// A value with which a literal or cell of this kind is well typed.
    pub fn fitting_value(&self, dice: &mut Dice, tables: &Tables, kind: Kind, near: u64) -> u64 {
        match kind {
            Kind::Int => some_int(dice),
            Kind::Pointer(Checked, Target::Array { count: 0, .. }) => self.some_address(dice),
            Kind::Pointer(Checked, target) => {
                if dice.once_in(self.null) {
                    return 0;
                }
                choose(dice, &self.fitting(tables, target), near)
            }
            Kind::Pointer(..) => self.some_address(dice),
        }
    }
}

/// One of the addresses, 0 if there is none. Often the next one up or down from
/// `near`, which makes long lists, forward and reverse.
fn choose(dice: &mut Dice, addresses: &[u64], near: u64) -> u64 {
    let choice = match dice.below(4) {
        0 => addresses.iter().copied().find(|address| *address > near),
        1 => addresses
            .iter()
            .rev()
            .copied()
            .find(|address| *address < near),
        _ => None,
    };
    let any = dice.pick(addresses);
    choice.or(any).unwrap_or(0)
}

pub fn some_int(dice: &mut Dice) -> u64 {
    match dice.below(12) {
        0 => u64::from(u32::MAX) - dice.below(20),
        1 => dice.below(1 << 32),
        2 => dice.range(100, 300),
        3 => dice.range(65_530, 65_540),
        _ => dice.below(12),
    }
}

/// Ground with about so many words.
pub fn ground(dice: &mut Dice, tables: &Tables, words: u64, null: u64) -> Ground {
    let mut ground = Ground {
        words: vec![None],
        null,
    };
    while ground.reach() < words {
        lay_gap(dice, &mut ground);
        let repeats = if dice.once_in(3) { dice.range(2, 8) } else { 1 };
        let target = some_target(dice, tables);
        for _ in 0..repeats {
            lay_object(tables, &mut ground, target, words);
        }
        if dice.once_in(8) {
            lay_stray(dice, tables, &mut ground);
        }
    }
    fill(dice, tables, &mut ground);
    ground
}

fn lay_gap(dice: &mut Dice, ground: &mut Ground) {
    let gap = match dice.below(12) {
        0 => dice.range(1, 3),
        1 => dice.range(1, 70),
        _ => 0,
    };
    for _ in 0..gap {
        ground.words.push(None);
    }
}

fn some_target(dice: &mut Dice, tables: &Tables) -> Target {
    match tables.any(dice) {
        Kind::Pointer(_, target) => target,
        Kind::Int => Target::Array { count: 3, of: 0 },
    }
}

/// An object that is too large for what is left isn't laid; one int is, so that
/// the ground grows all the same.
fn lay_object(tables: &Tables, ground: &mut Ground, target: Target, words: u64) {
    let mut list = tables.words(target, MOST_OBJECT + 1);
    if list.len() as u64 > MOST_OBJECT || list.len() as u64 > words || list.is_empty() {
        list = vec![0];
    }
    for of in list {
        ground.words.push(Some(Word {
            of,
            value: 0,
            solid: true,
        }));
    }
}

/// A word that may hold anything: "a bad word no checked pointer reaches is no
/// fault".
fn lay_stray(dice: &mut Dice, tables: &Tables, ground: &mut Ground) {
    ground.words.push(Some(Word {
        of: dice.below(tables.kinds.len() as u64),
        value: dice.below(5_000),
        solid: false,
    }));
}

fn fill(dice: &mut Dice, tables: &Tables, ground: &mut Ground) {
    for address in 0..ground.words.len() {
        if let Some(Some(word)) = ground.words.get(address).copied() {
            if word.solid {
                let kind = tables.kind(word.of);
                let value = ground.fitting_value(dice, tables, kind, address as u64);
                ground.words[address] = Some(Word { value, ..word });
            }
        }
    }
}
