//! The corpus that comes with the workspace.

use compare::counts::Counts;
use compare::minimise::minimised;
use compare::replay::{replay, Failed};
use std::path::{Path, PathBuf};

fn folder() -> PathBuf {
    Path::new(env!("CARGO_MANIFEST_DIR")).join("../corpus")
}

fn replayed() -> Counts {
    match replay(&folder()) {
        Ok(counts) => counts,
        Err(Failed::Io(path, error)) => panic!("{}: {error}", path.display()),
        Err(Failed::Different(path, difference)) => panic!("{}: {difference}", path.display()),
    }
}

#[test]
fn replays_without_a_difference_and_has_everything() {
    let counts = replayed();
    assert_eq!(counts.missing(), Vec::<String>::new());
    assert!(counts.images > 300);
}

#[test]
fn is_small() {
    let files = std::fs::read_dir(folder()).unwrap();
    let sizes = files.map(|file| file.unwrap().metadata().unwrap().len());
    assert!(sizes.sum::<u64>() < 300_000);
}

#[test]
fn minimised_images_keep_what_holds() {
    let image = [1, 0, 0, 2, 5, 7, 0, 9, 3, 0, 8, 0, 4, 0, 0, 3, 0];
    let sum = |image: &[u8]| {
        let (answer, _) = second::answer(image, 20, 10);
        second::line(&answer).starts_with("value 7 int steps 1")
    };
    assert!(sum(&image));
    let less = minimised(&image, sum);
    assert!(sum(&less));
    assert_eq!(less.len(), 11);
}
