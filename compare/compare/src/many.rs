//! Many generated images, on every core.

use crate::check::{Checker, Difference};
use crate::counts::Counts;
use generate::{case, Case, Dice};
use std::panic::{catch_unwind, AssertUnwindSafe};
use std::sync::atomic::{AtomicBool, AtomicU64, AtomicUsize, Ordering};
use std::sync::Mutex;
use std::time::{Duration, Instant};

/// How many images a thread takes at a time.
const PORTION: u64 = 256;

/// A difference and the image's index in the run.
pub struct Found {
    pub index: u64,
    pub label: &'static str,
    pub difference: Box<Difference>,
}

/// An image that takes longer than this is taken for one that never ends: no
/// run has more than 2,048 steps.
const PATIENCE: Duration = Duration::from_secs(30);

struct Shared {
    count: u64,
    seed: u64,
    next: AtomicU64,
    stop: AtomicBool,
    working: AtomicUsize,
    /// The image that each thread is at.
    at: Vec<AtomicU64>,
    counts: Mutex<Counts>,
    found: Mutex<Option<Found>>,
}

/// Checks so many images; ends at the first difference. `stuck` is called with
/// an image that doesn't come to an end; nothing can be done about its thread,
/// so it has to end the program.
pub fn many(
    count: u64,
    seed: u64,
    threads: usize,
    stuck: impl Fn(u64),
) -> Result<Counts, Box<Found>> {
    let threads = threads.max(1);
    let shared = Shared {
        count,
        seed,
        next: AtomicU64::new(0),
        stop: AtomicBool::new(false),
        working: AtomicUsize::new(threads),
        at: (0..threads).map(|_| AtomicU64::new(0)).collect(),
        counts: Mutex::new(Counts::default()),
        found: Mutex::new(None),
    };
    std::thread::scope(|scope| {
        for at in &shared.at {
            let shared = &shared;
            scope.spawn(move || {
                work(shared, at);
                shared.working.fetch_sub(1, Ordering::Relaxed);
            });
        }
        watch(&shared, stuck);
    });
    // Whatever a thread did, the numbers behind a lock are whole.
    let found = shared.found.into_inner().unwrap_or_else(|e| e.into_inner());
    match found {
        Some(found) => Err(Box::new(found)),
        None => Ok(shared
            .counts
            .into_inner()
            .unwrap_or_else(|e| e.into_inner())),
    }
}

/// Looks now and then whether every thread is at another image.
fn watch(shared: &Shared, stuck: impl Fn(u64)) {
    let mut seen: Vec<(u64, Instant)> = vec![(0, Instant::now()); shared.at.len()];
    while shared.working.load(Ordering::Relaxed) > 0 {
        std::thread::sleep(Duration::from_millis(50));
        for (at, (index, since)) in shared.at.iter().zip(&mut seen) {
            let now = at.load(Ordering::Relaxed);
            if now != *index {
                (*index, *since) = (now, Instant::now());
            } else if now != IDLE && since.elapsed() > PATIENCE {
                stuck(now);
            }
        }
    }
}

/// What a thread is at when it is through.
const IDLE: u64 = u64::MAX;

fn work(shared: &Shared, at: &AtomicU64) {
    let mut checker = Checker::new();
    let mut counts = Counts::default();
    while !shared.stop.load(Ordering::Relaxed) {
        let from = shared.next.fetch_add(PORTION, Ordering::Relaxed);
        if from >= shared.count {
            break;
        }
        for index in from..(from + PORTION).min(shared.count) {
            at.store(index, Ordering::Relaxed);
            if let Err(found) = one(&mut checker, &mut counts, shared.seed, index) {
                shared.stop.store(true, Ordering::Relaxed);
                keep_lowest(&shared.found, found);
                break;
            }
        }
    }
    at.store(IDLE, Ordering::Relaxed);
    let mut sum = shared.counts.lock().unwrap_or_else(|e| e.into_inner());
    sum.merge(&counts);
}

fn keep_lowest(kept: &Mutex<Option<Found>>, found: Found) {
    let mut kept = kept.lock().unwrap_or_else(|e| e.into_inner());
    let lower = match kept.as_ref() {
        Some(other) => found.index < other.index,
        None => true,
    };
    if lower {
        *kept = Some(found);
    }
}

/// One image with all its settings. A panic is a difference like another.
fn one(checker: &mut Checker, counts: &mut Counts, seed: u64, index: u64) -> Result<(), Found> {
    let case = case(seed, index);
    counts.image(Some(case.family));
    let checked = catch_unwind(AssertUnwindSafe(|| {
        settings(checker, counts, &case, seed, index)
    }));
    let difference = match checked {
        Ok(Ok(())) => return Ok(()),
        Ok(Err(difference)) => difference,
        Err(_) => Box::new(Difference {
            what: "a panic with one of the image's settings".to_string(),
            image: case.image,
            length: 0,
            limit: 0,
        }),
    };
    Err(Found {
        index,
        label: case.label,
        difference,
    })
}

fn settings(
    checker: &mut Checker,
    counts: &mut Counts,
    case: &Case,
    seed: u64,
    index: u64,
) -> Result<(), Box<Difference>> {
    // Other dice than the image's, for what the heap holds before.
    let mut dice = Dice::for_image(!seed, index);
    for (number, setting) in case.settings.iter().enumerate() {
        let numbers = checker.check(&mut dice, &case.image, *setting)?;
        counts.run(&numbers, number == 0);
    }
    Ok(())
}
