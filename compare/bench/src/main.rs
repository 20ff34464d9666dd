//! `bench [SECONDS [SEED]]`: every implementation on every workload in one
//! run, side by side; SECONDS is how long the slowest image is searched for.
//! `bench --only WORKLOAD NAME TIMES`: one of each, for callgrind.
//! `bench --grow FOLDER`: time against size, for the plot.
#![forbid(unsafe_code)]

mod clock;
#[cfg(feature = "lua")]
mod embedded;
mod grow;
mod instructions;
mod knobs;
mod measure;
mod report;
mod slow;
mod workloads;

use compare::check::{Checker, DEFAULT_LIMIT};
use compare::implementation::{all, Implementation};
use generate::{Before, Dice, Limit, Setting};
use report::{Figures, MEASURE};
use std::path::Path;
use std::process::ExitCode;
use std::time::Duration;
use workloads::Workload;

const USAGE: &str = "\
bench [SECONDS [SEED]]                   all workloads, side by side
bench --only WORKLOAD NAME TIMES         one implementation's answers and nothing else,
                                         for callgrind; WORKLOAD counts from 0, or is
                                         an image's file
bench --grow FOLDER                      times of growing scripts and lists, into two files";

fn main() -> ExitCode {
    let words: Vec<String> = std::env::args().skip(1).collect();
    let words: Vec<&str> = words.iter().map(String::as_str).collect();
    let done = match words.as_slice() {
        ["--only", workload, name, times] => only(workload, name, times).ok_or(USAGE.into()),
        ["--grow", folder] => grow::write_all(&mut columns(), Path::new(folder))
            .ok_or(format!("{folder} can't be written")),
        numbers => match numbers.iter().map(|word| word.parse().ok()).collect() {
            Some::<Vec<u64>>(numbers) => {
                let seconds = numbers.first().copied().unwrap_or(10);
                side_by_side(seconds, numbers.get(1).copied().unwrap_or(1))
            }
            None => Err(USAGE.into()),
        },
    };
    match done {
        Ok(()) => ExitCode::SUCCESS,
        Err(what) => {
            eprintln!("{what}");
            ExitCode::FAILURE
        }
    }
}

/// The library first, where it is there, and `second` last.
fn columns() -> Vec<Box<dyn Implementation>> {
    let mut implementations = all();
    implementations.reverse();
    implementations
}

/// So many answers and as little as possible besides.
fn only(workload: &str, name: &str, times: &str) -> Option<()> {
    let workload = match workload.parse::<usize>() {
        Ok(place) => workloads::all().into_iter().nth(place)?,
        Err(_) => Workload::from_file(workload)?,
    };
    let mut implementations = all();
    let one = implementations.iter_mut().find(|one| one.name() == name)?;
    let mut job = measure::job(one.as_mut(), &workload);
    for _ in 0..times.parse::<u64>().ok()? {
        job();
    }
    Some(())
}

fn side_by_side(seconds: u64, seed: u64) -> Result<(), String> {
    let mut implementations = columns();
    let searched = searched_for(&implementations);
    let found = search(implementations[searched].as_mut(), seconds, seed);
    let file = keep(&found.workload)?;
    let mut list = workloads::all();
    let mut named: Vec<String> = (0..list.len()).map(|place| place.to_string()).collect();
    list.push(found.workload.clone());
    named.push(file);
    for workload in &list {
        agreed(workload).map_err(|difference| format!("{}: {difference}", workload.name))?;
    }
    let times = measure::answers(&mut implementations, &list);
    let rows: Vec<Vec<Figures>> = times
        .iter()
        .zip(&named)
        .map(|(times, named)| figures(&implementations, times, named))
        .collect();
    report::print_table(&list, &rows);
    println!();
    report::print_found(&found, implementations[searched].name(), seconds, seed);
    beside_lua(&mut implementations)
}

#[cfg(feature = "lua")]
fn beside_lua(implementations: &mut [Box<dyn Implementation>]) -> Result<(), String> {
    println!();
    embedded::print_all(implementations)
}

#[cfg(not(feature = "lua"))]
fn beside_lua(_implementations: &mut [Box<dyn Implementation>]) -> Result<(), String> {
    Ok(())
}

/// What was measured of a workload, and the instructions, which are counted
/// here; `named` is the workload's name for `--only`.
fn figures(
    implementations: &[Box<dyn Implementation>],
    times: &[f64],
    named: &str,
) -> Vec<Figures> {
    let figures = implementations
        .iter()
        .zip(times)
        .map(|(one, time)| Figures {
            name: one.name(),
            time: *time,
            instructions: report::is_counted(one.name())
                .then(|| instructions::of_one(named, one.name()))
                .flatten(),
        });
    figures.collect()
}

/// The slowest image is one for the library; for `tuned` as long as there is
/// none.
fn searched_for(implementations: &[Box<dyn Implementation>]) -> usize {
    let place = |name: &str| implementations.iter().position(|one| one.name() == name);
    place("library").or(place(MEASURE)).unwrap_or(0)
}

fn search(one: &mut dyn Implementation, seconds: u64, seed: u64) -> slow::Found {
    let mut heap = Vec::new();
    slow::slowest(Duration::from_secs(seconds), seed, |workload| {
        measure::once(one, workload, &mut heap)
    })
}

/// Keeps the image found beside this program, for callgrind and for a second
/// look; gives the file's name.
fn keep(workload: &Workload) -> Result<String, String> {
    let own = std::env::current_exe().map_err(|error| error.to_string())?;
    let file = own.with_file_name("slowest.img");
    std::fs::write(&file, &workload.image).map_err(|error| error.to_string())?;
    Ok(file.display().to_string())
}

/// All implementations answer the same; otherwise times say nothing.
fn agreed(workload: &Workload) -> Result<(), String> {
    let setting = Setting {
        length: 2 * workload.words,
        limit: Limit::Exactly(DEFAULT_LIMIT),
        before: Before::Junk,
    };
    let mut dice = Dice::new(1);
    let checked = Checker::new().check(&mut dice, &workload.image, setting);
    match checked {
        Ok(numbers) if numbers[0] == 1 => Ok(()),
        Ok(numbers) => Err(format!("refused: {numbers:?}")),
        Err(difference) => Err(difference.to_string()),
    }
}
