//! Byte mutations: change, drop, insert, cut, append, duplicate a part.

use crate::dice::Dice;

/// One to four mutations.
pub fn mutated(dice: &mut Dice, image: &[u8]) -> Vec<u8> {
    let mut image = image.to_vec();
    let times = 1 + dice.below(4) * u64::from(dice.once_in(2));
    for _ in 0..times {
        mutate(dice, &mut image);
    }
    image
}

fn mutate(dice: &mut Dice, image: &mut Vec<u8>) {
    if image.is_empty() {
        image.push(some_byte(dice));
        return;
    }
    let place = dice.index(image.len());
    match dice.below(10) {
        0..=2 => image[place] = some_byte(dice),
        3 => image[place] ^= 1 << dice.below(8),
        4 => {
            image[place] = image[place]
                .wrapping_add(dice.range(0, 2) as u8)
                .wrapping_sub(1)
        }
        5 => drop_part(dice, image, place),
        6 => {
            for _ in 0..dice.range(1, 3) {
                image.insert(place, some_byte(dice));
            }
        }
        7 => image.truncate(place),
        8 => {
            for _ in 0..dice.range(1, 4) {
                image.push(some_byte(dice));
            }
        }
        _ => duplicate(dice, image, place),
    }
}

/// Small bytes most of the time: they are the ones that say something.
fn some_byte(dice: &mut Dice) -> u8 {
    match dice.below(4) {
        0 => dice.below(256) as u8,
        _ => dice.below(12) as u8,
    }
}

fn drop_part(dice: &mut Dice, image: &mut Vec<u8>, place: usize) {
    let most = (image.len() - place) as u64;
    let length = dice.range(1, most.min(4)) as usize;
    image.drain(place..place + length);
}

/// A part is written a second time, somewhere.
fn duplicate(dice: &mut Dice, image: &mut Vec<u8>, place: usize) {
    let most = (image.len() - place) as u64;
    let length = dice.range(1, most.min(12)) as usize;
    let part: Vec<u8> = image[place..place + length].to_vec();
    let to = dice.index(image.len() + 1);
    image.splice(to..to, part);
}

/// Bytes without a plan, some of them with a head that reads well.
pub fn noise(dice: &mut Dice) -> Vec<u8> {
    let length = dice.below(40);
    let mut image: Vec<u8> = match dice.below(4) {
        0 => vec![],
        1 => vec![1, 0, 0, 0],
        2 => vec![1, 0, 1, 0, 0, 0, 1, 1, 5, 0],
        _ => vec![1, 1, 1, 2, 0, 1, 0, 1, 0, 2, 1, 0, 0, 1, 1, 1],
    };
    for _ in 0..length {
        image.push(some_byte(dice));
    }
    image
}
