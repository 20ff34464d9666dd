//! One image as the fuzzer brings it: with which heaps and limits it is asked.

use compare::check::{Checker, Difference};
use generate::{outline, settings, Before, Dice, Limit, Role, Setting};

/// No heap has more words, however far an image's gaps go.
const MOST_WORDS: u64 = 4_096;

/// Words that the steady setting has behind the last cell, for mallocs.
const ROOM: u64 = 64;

/// Checks an image in everything that `compare` checks, with two settings.
pub fn check(checker: &mut Checker, image: &[u8]) -> Result<(), Box<Difference>> {
    let mut dice = Dice::new(mark(image));
    for setting in both_settings(&mut dice, image) {
        checker.check(&mut dice, image, setting)?;
    }
    Ok(())
}

/// One with room and steps enough, so that an image which differs little is
/// asked the same way and coverage can grow step by step; and any other. Both
/// follow from the image alone, so a corpus holds images and nothing else.
fn both_settings(dice: &mut Dice, image: &[u8]) -> [Setting; 2] {
    let last = last(image);
    let steady = Setting {
        length: 2 * (last + ROOM).min(MOST_WORDS) as usize,
        limit: Limit::Default,
        before: Before::Junk,
    };
    let other = settings(dice, last).pop().unwrap_or(steady);
    [steady, other]
}

/// The last address that the image sets, at most 4,096.
fn last(image: &[u8]) -> u64 {
    let numbers = outline(image).numbers;
    let gaps = numbers.iter().filter(|seen| seen.role == Role::Gap);
    gaps.fold(0, |sum: u64, gap| sum.saturating_add(gap.value))
        .min(MOST_WORDS)
}

/// A number that is another for nearly every image (FNV-1a).
pub fn mark(image: &[u8]) -> u64 {
    image.iter().fold(0xCBF2_9CE4_8422_2325, |sum, byte| {
        (sum ^ u64::from(*byte)).wrapping_mul(0x0100_0000_01B3)
    })
}
