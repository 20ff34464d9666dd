//! What the generator promises: typed images are accepted, every family and
//! limit comes up, and a seed fixes everything.

use generate::model::Model;
use generate::{bytes, case, outline, typed, Dice, Family, Limit};
use second::{answer, Answer, DEFAULT_LIMIT};
use std::collections::BTreeMap;

fn seeded(seed: u64) -> (Model, Vec<u8>) {
    let model = typed(&mut Dice::for_image(seed, 7));
    let image = bytes(&model);
    (model, image)
}

#[test]
fn typed_images_are_accepted() {
    let mut faults = BTreeMap::new();
    for seed in 0..4_000 {
        let (_, image) = seeded(seed);
        if let (Answer::Refused(refusal), _) = answer(&image, 4_096, DEFAULT_LIMIT) {
            *faults.entry(refusal.number).or_insert(0) += 1;
        }
    }
    // All that may be wrong is that a script became too large.
    let limit = faults.remove(&4).unwrap_or(0);
    assert!(limit < 40, "{limit}");
    assert_eq!(faults, BTreeMap::new());
}

#[test]
fn typed_images_take_many_steps() {
    let mut long = 0;
    for seed in 0..1_000 {
        let (_, image) = seeded(seed);
        if let (Answer::Ran(run), _) = answer(&image, 4_096, DEFAULT_LIMIT) {
            long += usize::from(run.steps > 30);
        }
    }
    assert!(long > 30, "{long}");
}

#[test]
fn a_seed_fixes_the_images() {
    for index in 0..200 {
        let one = case(5, index);
        let two = case(5, index);
        assert_eq!(one.image, two.image);
        assert_eq!(one.settings, two.settings);
        assert_eq!(one.label, two.label);
    }
    assert_ne!(case(5, 0).image, case(6, 0).image);
}

#[test]
fn families_limits_and_lengths_come_up() {
    let mut families = BTreeMap::new();
    let mut limits = BTreeMap::new();
    let (mut odd, mut beyond, mut none) = (0, 0, 0);
    for index in 0..5_000 {
        let case = case(1, index);
        *families.entry(case.family.name()).or_insert(0) += 1;
        for setting in case.settings {
            let name = match setting.limit {
                Limit::Exactly(0) => "0",
                Limit::Exactly(1) => "1",
                Limit::Exactly(_) => "few",
                Limit::Default => "default",
                Limit::Enough => "enough",
                Limit::OneLess => "one less",
                Limit::OneMore => "one more",
                Limit::Most => "most",
            };
            *limits.entry(name).or_insert(0) += 1;
            odd += setting.length % 2;
            beyond += usize::from(setting.length > 8_192);
            none += usize::from(setting.length < 2);
        }
    }
    assert_eq!(families.len(), Family::ALL.len(), "{families:?}");
    assert_eq!(limits.len(), 8, "{limits:?}");
    assert!(
        odd > 100 && beyond > 50 && none > 50,
        "{odd} {beyond} {none}"
    );
}

#[test]
fn the_outline_sees_what_was_written() {
    for seed in 0..500 {
        let (model, image) = seeded(seed);
        let seen = outline(&image);
        assert!(seen.complete);
        assert_eq!(seen.nodes.len(), model.root.count());
        assert_eq!(seen.steps().len() as u64, seen.operators());
        let cut = outline(&image[..image.len() - 1]);
        assert!(!cut.complete && cut.wanted.is_some());
    }
}
