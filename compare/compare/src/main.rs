//! `compare [COUNT [SEED [THREADS]]]`, `compare --replay DIR`,
//! `compare --collect DIR COUNT SEED`, `compare --case SEED INDEX`.
#![forbid(unsafe_code)]

use compare::collect::collect;
use compare::counts::Counts;
use compare::hex::hex;
use compare::implementation::all;
use compare::many::many;
use compare::replay::{replay, Failed};
use std::path::Path;
use std::process::ExitCode;
use std::time::{Duration, Instant};

const COUNT: u64 = 200_000;
const SEED: u64 = 0xC0D1_17BE;

/// From this many images on, every fault and every end has to come up.
const ENOUGH: u64 = 20_000;

/// A corpus takes some seconds at most.
const REPLAY: Duration = Duration::from_secs(300);

const USAGE: &str = "\
compare [COUNT [SEED [THREADS]]]   generated images (200000, a fixed seed, every core)
compare --replay DIR               a folder of image files
compare --collect DIR COUNT SEED   make such a folder from generated images
compare --case SEED INDEX          one generated image, in hexadecimal";

fn main() -> ExitCode {
    let words: Vec<String> = std::env::args().skip(1).collect();
    let words: Vec<&str> = words.iter().map(String::as_str).collect();
    match words.as_slice() {
        ["--replay", folder] => replay_folder(Path::new(folder)),
        ["--collect", folder, count, seed] => match (number(count), number(seed)) {
            (Some(count), Some(seed)) => collect_folder(Path::new(folder), count, seed),
            _ => usage(),
        },
        ["--case", seed, index] => match (number(seed), number(index)) {
            (Some(seed), Some(index)) => show_case(seed, index),
            _ => usage(),
        },
        numbers => match numbers
            .iter()
            .map(|word| number(word))
            .collect::<Option<Vec<u64>>>()
        {
            Some(numbers) if numbers.len() <= 3 => run(&numbers),
            _ => usage(),
        },
    }
}

fn usage() -> ExitCode {
    eprintln!("{USAGE}");
    ExitCode::FAILURE
}

/// Decimal, or hexadecimal behind 0x.
fn number(word: &str) -> Option<u64> {
    match word.strip_prefix("0x") {
        Some(digits) => u64::from_str_radix(digits, 16).ok(),
        None => word.parse().ok(),
    }
}

fn names() -> String {
    let names: Vec<&str> = all().iter().map(|one| one.name()).collect();
    names.join(", ")
}

fn run(numbers: &[u64]) -> ExitCode {
    let count = numbers.first().copied().unwrap_or(COUNT);
    let seed = numbers.get(1).copied().unwrap_or(SEED);
    let cores = std::thread::available_parallelism().map_or(1, |cores| cores.get());
    let threads = numbers.get(2).map_or(cores, |threads| *threads as usize);
    println!(
        "comparing {}: {count} images, seed {seed:#x}, {threads} threads",
        names()
    );
    let start = Instant::now();
    let stuck = |index: u64| {
        println!("DIFFERENCE: an answer that doesn't come to an end, or a very busy machine");
        show_case(seed, index);
        std::process::exit(1);
    };
    match many(count, seed, threads, stuck) {
        Ok(counts) => {
            println!("{counts}");
            println!(
                "no difference, {:.1} seconds",
                start.elapsed().as_secs_f64()
            );
            all_came_up(&counts, count >= ENOUGH)
        }
        Err(found) => {
            println!("{}", found.difference);
            println!("image {} of seed {seed:#x} ({})", found.index, found.label);
            ExitCode::FAILURE
        }
    }
}

fn all_came_up(counts: &Counts, needed: bool) -> ExitCode {
    let missing = counts.missing();
    if !missing.is_empty() {
        println!("never came up: {}", missing.join(", "));
        if needed {
            return ExitCode::FAILURE;
        }
    }
    ExitCode::SUCCESS
}

fn replay_folder(folder: &Path) -> ExitCode {
    println!("replaying {} with {}", folder.display(), names());
    std::thread::spawn(|| {
        std::thread::sleep(REPLAY);
        println!("DIFFERENCE: an answer that doesn't come to an end, or a very busy machine");
        std::process::exit(1);
    });
    match replay(folder) {
        Ok(counts) => {
            println!("{counts}");
            println!("no difference");
            all_came_up(&counts, true)
        }
        Err(Failed::Io(path, error)) => {
            println!("{}: {error}", path.display());
            ExitCode::FAILURE
        }
        Err(Failed::Different(path, difference)) => {
            println!("{difference}");
            println!("file {}", path.display());
            ExitCode::FAILURE
        }
    }
}

fn collect_folder(folder: &Path, count: u64, seed: u64) -> ExitCode {
    match collect(folder, count, seed) {
        Ok((files, bytes)) => {
            println!("{files} files, {bytes} bytes in {}", folder.display());
            ExitCode::SUCCESS
        }
        Err(error) => {
            println!("{}: {error}", folder.display());
            ExitCode::FAILURE
        }
    }
}

fn show_case(seed: u64, index: u64) -> ExitCode {
    let case = generate::case(seed, index);
    println!("{}: {}", case.family.name(), case.label);
    println!("{}", hex(&case.image));
    for setting in &case.settings {
        println!("{setting:?}");
    }
    ExitCode::SUCCESS
}
