//! Mutations lead from image to image, accepted ones among them.

use fuzz::mutate::{changed, crossed, Change};
use generate::{bytes, typed, Dice};

fn accepted(image: &[u8]) -> bool {
    let (answer, _) = second::answer(image, 400, 0);
    matches!(answer, second::Answer::Ran(_))
}

#[test]
fn some_are_accepted_and_some_refused() {
    let mut dice = Dice::new(1);
    let (mut good, mut bad, mut own) = (0, 0, 0);
    for seed in 0..2_000 {
        let image = bytes(&typed(&mut Dice::new(seed)));
        match changed(&mut dice, &image) {
            Change::Bytes => own += 1,
            Change::Image(image) if accepted(&image) => good += 1,
            Change::Image(_) => bad += 1,
        }
    }
    assert!(good > 200 && bad > 200 && own > 800, "{good} {bad} {own}");
}

#[test]
fn two_give_one_that_is_neither() {
    let mut dice = Dice::new(1);
    let mut good = 0;
    for seed in 0..1_000 {
        let one = bytes(&typed(&mut Dice::new(seed)));
        let two = bytes(&typed(&mut Dice::new(seed + 1)));
        let image = crossed(&mut dice, &one, &two);
        good += u32::from(image != one && image != two && accepted(&image));
    }
    assert!(good > 50, "{good}");
}

#[test]
fn nothing_is_too_short() {
    let mut dice = Dice::new(1);
    for _ in 0..200 {
        changed(&mut dice, &[]);
        crossed(&mut dice, &[], &[1]);
    }
}
