//! Fences change no answer.

use compare::check::Checker;
use compare::implementation::{Second, Tuned};
use fuzz::check::check;
use fuzz::fence::Fenced;

#[test]
fn the_answers_are_the_same() {
    let mut checker = Checker::with(vec![
        Box::new(Second),
        Box::new(Fenced::new(Second)),
        Box::new(Fenced::new(Tuned::new())),
    ]);
    for index in 0..2_000 {
        let image = generate::case(7, index).image;
        if let Err(difference) = check(&mut checker, &image) {
            panic!("{difference}");
        }
    }
}
