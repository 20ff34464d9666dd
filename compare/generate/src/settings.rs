//! Heap lengths and step limits with which an image is asked.

use crate::dice::Dice;

#[derive(Clone, Copy, Debug, PartialEq, Eq)]
pub enum Limit {
    /// 100,000.
    Default,
    Exactly(u64),
    /// What the whole run takes, that plus or minus one; who asks has to know
    /// it.
    Enough,
    OneLess,
    OneMore,
    /// The largest number that there is.
    Most,
}

/// What the lent heap holds before.
#[derive(Clone, Copy, Debug, PartialEq, Eq)]
pub enum Before {
    Zeros,
    /// Any numbers.
    Junk,
    /// What looks like defined words.
    Words,
}

#[derive(Clone, Copy, Debug, PartialEq, Eq)]
pub struct Setting {
    /// How many numbers are lent, two a word and perhaps an odd one.
    pub length: usize,
    pub limit: Limit,
    pub before: Before,
}

/// Settings for an image that sets words up to `last`: the first with enough
/// words and steps, most of the time.
pub fn settings(dice: &mut Dice, last: u64) -> Vec<Setting> {
    let count = dice.range(2, 5);
    let mut list = Vec::new();
    for number in 0..count {
        let length = if number == 0 {
            fitting_length(dice, last)
        } else {
            some_length(dice, last)
        };
        let limit = if number == 0 {
            Limit::Default
        } else {
            some_limit(dice)
        };
        let before = some_before(dice);
        list.push(Setting {
            length,
            limit,
            before,
        });
    }
    list
}

/// Two numbers a word; now and then one more.
fn length_of(dice: &mut Dice, words: u64) -> usize {
    2 * words as usize + usize::from(dice.once_in(4))
}

fn fitting_length(dice: &mut Dice, last: u64) -> usize {
    let last = last.min(4_096);
    let words = match dice.below(24) {
        0..=2 => last,
        3..=7 => last + dice.range(1, 8),
        8..=20 => last + dice.range(9, 150),
        21 | 22 => last.max(1_024),
        _ => return large_length(dice),
    };
    length_of(dice, words)
}

fn some_length(dice: &mut Dice, last: u64) -> usize {
    let words = match dice.below(24) {
        0..=2 => dice.below(21),
        3 => last.saturating_sub(1),
        4..=6 => last,
        7..=12 => last + dice.range(1, 12),
        13..=18 => last + dice.range(13, 100),
        19 | 20 => 16,
        21 | 22 => 1_024,
        _ => return large_length(dice),
    };
    length_of(dice, words)
}

/// 4,096 words, just below and beyond: longer heaps are used for their first
/// 4,096 words.
fn large_length(dice: &mut Dice) -> usize {
    match dice.below(4) {
        0 => 8_192,
        1 => 8_192 - dice.range(1, 3) as usize,
        2 => 8_193,
        _ => 8_192 + dice.range(2, 70) as usize,
    }
}

fn some_limit(dice: &mut Dice) -> Limit {
    match dice.below(12) {
        0 => Limit::Exactly(0),
        1 => Limit::Exactly(1),
        2..=4 => Limit::Exactly(dice.range(2, 12)),
        5 => Limit::Enough,
        6 | 7 => Limit::OneLess,
        8 => Limit::OneMore,
        9 => Limit::Most,
        _ => Limit::Default,
    }
}

fn some_before(dice: &mut Dice) -> Before {
    match dice.below(4) {
        0 => Before::Zeros,
        1 => Before::Words,
        _ => Before::Junk,
    }
}

/// A lent heap of this length as it is before an answer.
pub fn before(dice: &mut Dice, setting: Setting, heap: &mut Vec<u64>) {
    heap.clear();
    match setting.before {
        Before::Zeros => heap.resize(setting.length, 0),
        Before::Junk => heap.extend((0..setting.length).map(|_| dice.roll())),
        Before::Words => {
            let kinds = [1, 2, 4, 6 + 2_048 * 3, 10, 3, 8];
            heap.extend((0..setting.length).map(|place| match place % 2 {
                0 => dice.below(30),
                _ => kinds[dice.index(kinds.len())],
            }));
        }
    }
}
