//! A corpus of image files, each with many heaps and limits.

use crate::check::{Checker, Difference};
use crate::counts::Counts;
use generate::{Before, Dice, Limit, Setting};
use std::fs;
use std::io;
use std::path::{Path, PathBuf};

/// Numbers lent: every small W, the usual ones, odd ones, and more than 4,096
/// words.
const LENGTHS: [usize; 16] = [
    0, 1, 2, 4, 6, 9, 12, 16, 24, 32, 33, 40, 130, 2_048, 8_192, 8_203,
];

const LIMITS: [Limit; 9] = [
    Limit::Default,
    Limit::Exactly(0),
    Limit::Exactly(1),
    Limit::Exactly(2),
    Limit::Exactly(5),
    Limit::OneLess,
    Limit::Enough,
    Limit::OneMore,
    Limit::Most,
];

pub enum Failed {
    Io(PathBuf, io::Error),
    Different(PathBuf, Box<Difference>),
}

/// Checks every file of a folder, in the order of their names.
pub fn replay(folder: &Path) -> Result<Counts, Failed> {
    let mut counts = Counts::default();
    let mut checker = Checker::new();
    for path in files(folder).map_err(|error| Failed::Io(folder.to_path_buf(), error))? {
        let image = match fs::read(&path) {
            Ok(image) => image,
            Err(error) => return Err(Failed::Io(path, error)),
        };
        counts.image(None);
        if let Err(difference) = one(&mut checker, &mut counts, &image) {
            return Err(Failed::Different(path, difference));
        }
    }
    Ok(counts)
}

fn files(folder: &Path) -> io::Result<Vec<PathBuf>> {
    let mut files = Vec::new();
    for entry in fs::read_dir(folder)? {
        let path = entry?.path();
        if path.is_file() {
            files.push(path);
        }
    }
    files.sort();
    Ok(files)
}

fn one(checker: &mut Checker, counts: &mut Counts, image: &[u8]) -> Result<(), Box<Difference>> {
    let mut dice = Dice::new(image.len() as u64);
    let mut opening = true;
    for setting in settings() {
        let numbers = checker.check(&mut dice, image, setting)?;
        counts.run(&numbers, opening);
        opening = false;
    }
    Ok(())
}

/// W = 16 with the default limit first; large heaps only with a few limits.
fn settings() -> Vec<Setting> {
    let setting = |length, limit| Setting {
        length,
        limit,
        before: Before::Junk,
    };
    let mut list = vec![setting(32, Limit::Default)];
    for length in LENGTHS {
        for limit in LIMITS {
            if length <= 130 || matches!(limit, Limit::Default | Limit::OneLess) {
                list.push(setting(length, limit));
            }
        }
    }
    list
}
