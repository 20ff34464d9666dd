//! A corpus: of the generated images one for each signature, the shortest, and
//! that made shorter; some near a limit; and some whole scripts, in which much
//! happens that no signature tells.

use crate::check::DEFAULT_LIMIT;
use crate::implementation::{Implementation, Tuned};
use crate::minimise::minimised;
use crate::signature::signature;
use generate::{case, Family};
use std::collections::BTreeMap;
use std::fs;
use std::io;
use std::path::Path;

/// Numbers lent when signatures are taken: W = 20 for short images, 4,096 for
/// long ones.
const SHORT_HEAP: usize = 40;
const LONG_HEAP: usize = 8_192;

/// Of longer images only those near a limit are kept, as they are.
const LONG: usize = 400;

/// How many short images near each limit are kept for each fault and end, and
/// how many with a broken node or cell.
const NEAR: usize = 2;
const BROKEN: usize = 4;

/// How many whole scripts are kept, how long each may be, and how many steps it
/// takes at least.
const WHOLE: usize = 60;
const WHOLE_BYTES: usize = 250;
const WHOLE_STEPS: u64 = 12;

/// All long images together have at most so many bytes.
const MOST_LONG_BYTES: usize = 150_000;

/// Writes the corpus of so many images into a folder; gives how many files and
/// bytes it has.
pub fn collect(folder: &Path, count: u64, seed: u64) -> io::Result<(usize, usize)> {
    let mut asker = Asker::new();
    let (mut short, long) = shortest(&mut asker, count, seed);
    let whole = whole(&mut asker, count, seed);
    let few_of_each = few_of_each(&mut asker, count, seed);
    for (name, image) in &mut short {
        *image = minimised(image, |next| asker.signature(next, SHORT_HEAP) == *name);
    }
    fs::create_dir_all(folder)?;
    let mut files = 0;
    let mut bytes = 0;
    for (name, image) in short
        .iter()
        .chain(&few(long))
        .chain(&whole)
        .chain(&few_of_each)
    {
        fs::write(folder.join(format!("{name}.img")), image)?;
        files += 1;
        bytes += image.len();
    }
    Ok((files, bytes))
}

type Images = BTreeMap<String, Vec<u8>>;

/// The shortest image for each signature; long ones apart.
fn shortest(asker: &mut Asker, count: u64, seed: u64) -> (Images, Images) {
    let mut short = Images::new();
    let mut long = Images::new();
    for index in 0..count {
        let case = case(seed, index);
        if case.image.len() <= LONG {
            let name = asker.signature(&case.image, SHORT_HEAP);
            keep_shorter(&mut short, name, case.image);
        } else if case.family == Family::Edge {
            let name = asker.signature(&case.image, LONG_HEAP);
            let class = name.split('-').next().unwrap_or("");
            let name = format!("long-{}-{class}", slug(case.label));
            // The longest that is accepted and the shortest that is refused
            // are nearest to the limit.
            if class.starts_with(char::is_numeric) {
                keep_shorter(&mut long, name, case.image);
            } else {
                keep_longer(&mut long, name, case.image);
            }
        }
    }
    (short, long)
}

fn keep_shorter(images: &mut Images, name: String, image: Vec<u8>) {
    match images.get(&name) {
        Some(kept) if kept.len() <= image.len() => {}
        _ => {
            images.insert(name, image);
        }
    }
}

fn keep_longer(images: &mut Images, name: String, image: Vec<u8>) {
    match images.get(&name) {
        Some(kept) if kept.len() >= image.len() => {}
        _ => {
            images.insert(name, image);
        }
    }
}

/// The first few short images near each limit, for each fault and end, and of
/// those with a broken node or cell that typing refuses.
fn few_of_each(asker: &mut Asker, count: u64, seed: u64) -> Images {
    let mut images = Images::new();
    for case in (0..count).map(|index| case(seed, index)) {
        if case.image.len() > LONG {
            continue;
        }
        let name = asker.signature(&case.image, SHORT_HEAP);
        let class = name.split('-').next().unwrap_or("");
        let most = match case.family {
            Family::Edge => NEAR,
            Family::Broken if matches!(class, "09" | "10") => BROKEN,
            _ => 0,
        };
        let names = (0..most).map(|number| format!("{}-{class}-{number}", slug(case.label)));
        let free = names
            .into_iter()
            .find(|name| images.get(name).is_none_or(|kept| *kept == case.image));
        if let Some(name) = free {
            images.insert(name, case.image);
        }
    }
    images
}

/// A label as part of a file's name.
fn slug(label: &str) -> String {
    label
        .replace(": ", "-")
        .replace(", ", "-")
        .replace(' ', "-")
}

/// The first well-typed scripts that take some steps and step unchecked too.
fn whole(asker: &mut Asker, count: u64, seed: u64) -> Images {
    let cases = (0..count).map(|index| case(seed, index).image);
    let fitting = cases
        .filter(|image| image.len() <= WHOLE_BYTES)
        .filter(|image| {
            let [ran, _, _, _, steps, first] = asker.numbers(image, SHORT_HEAP);
            ran == 1 && steps >= WHOLE_STEPS && first > 0
        });
    let named = fitting.zip(0u64..);
    named
        .take(WHOLE)
        .map(|(image, number)| (format!("whole-{number:03}"), image))
        .collect()
}

/// As many as there is space for, the shortest first.
fn few(images: Images) -> Images {
    let mut list: Vec<(String, Vec<u8>)> = images.into_iter().collect();
    list.sort_by_key(|(name, image)| (image.len(), name.clone()));
    let mut left = MOST_LONG_BYTES;
    let mut kept = Images::new();
    for (name, image) in list {
        if image.len() <= left {
            left -= image.len();
            kept.insert(name, image);
        }
    }
    kept
}

struct Asker {
    tuned: Tuned,
    heap: Vec<u64>,
}

impl Asker {
    fn new() -> Asker {
        Asker {
            tuned: Tuned::new(),
            heap: Vec::new(),
        }
    }

    fn signature(&mut self, image: &[u8], length: usize) -> String {
        signature(image, &self.numbers(image, length))
    }

    fn numbers(&mut self, image: &[u8], length: usize) -> [u64; 6] {
        self.heap.resize(length, 0);
        let heap = &mut self.heap;
        let mut out = [0; 6];
        self.tuned.answer(image, heap, DEFAULT_LIMIT, &mut out);
        out
    }
}
