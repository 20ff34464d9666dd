//! Images read back as data, and written again.

use fuzz::model::model;
use generate::{bytes, typed, Dice};

#[test]
fn what_was_written_is_read_back() {
    for seed in 0..2_000 {
        let wanted = typed(&mut Dice::new(seed));
        let got = model(&bytes(&wanted));
        assert_eq!(got.as_ref(), Some(&wanted), "seed {seed}");
    }
}

#[test]
fn what_cannot_be_written_again_is_not_read() {
    // Ends early; an unknown code; an unknown mode.
    assert_eq!(model(&[1, 0, 0, 0, 0, 5]), None);
    assert_eq!(model(&[1, 0, 0, 0, 10]), None);
    assert_eq!(model(&[1, 0, 1, 2, 0, 0, 0, 0, 5, 0]), None);
}
