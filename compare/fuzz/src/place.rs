//! Mutations at the place where an image is refused. What stands before it is
//! in order, so another number there leads to the next rule, and rules that are
//! asked of the same number come together: a node that is one too deep, say,
//! whose code is written too long.

use generate::{outline, Dice, Role};
use second::Answer;

/// Enough words that no cell's address is above them without need.
const WORDS: usize = 4_096;

/// The image with another number there, or cut there; none if it is run.
pub fn mended(dice: &mut Dice, image: &[u8]) -> Option<Vec<u8>> {
    let place = refused_at(image)?;
    let head = image.get(..place)?;
    let rest = image.get(place..)?;
    let old = rest.iter().take_while(|byte| **byte >= 128).count() + 1;
    let tail = match dice.below(4) {
        0 => &[],
        _ => rest.get(old..).unwrap_or(&[]),
    };
    let new = if dice.once_in(8) {
        Vec::new()
    } else {
        number(dice)
    };
    Some([head, &new, tail].concat())
}

/// The byte where the number begins that the image is refused at. A refusal by
/// a typing rule names a node, which begins with its code.
fn refused_at(image: &[u8]) -> Option<usize> {
    let (answer, _) = second::answer(image, WORDS, 0);
    match answer {
        Answer::Ran(_) => None,
        Answer::Refused(refusal) if refusal.number >= 9 => {
            let numbers = outline(image).numbers;
            let mut codes = numbers.iter().filter(|seen| seen.role == Role::Code);
            codes.nth(refusal.place).map(|seen| seen.place)
        }
        Answer::Refused(refusal) => Some(refusal.place),
    }
}

/// A number: half of them one byte, the others with any number of groups, too
/// many too, and not always in the shortest form or with an end.
fn number(dice: &mut Dice) -> Vec<u8> {
    let groups = dice.range(1, 4) * u64::from(dice.once_in(2));
    let any = 128 | dice.below(128) as u8;
    let group = dice.pick(&[0x80, 0xFF, any]).unwrap_or(any);
    let mut bytes = vec![group; groups as usize];
    bytes.push(match dice.below(4) {
        0 => dice.below(256) as u8,
        _ => dice.below(18) as u8,
    });
    bytes
}
