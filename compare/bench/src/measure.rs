//! Times, measured side by side.

use crate::clock;
use crate::workloads::Workload;
use compare::check::DEFAULT_LIMIT;
use compare::implementation::Implementation;
use std::hint::black_box;
use std::time::{Duration, Instant};

/// How many nanoseconds one portion of calls takes at least: short, so that some portions
/// run without being interrupted even on a busy machine.
const PORTION: u64 = 1_000_000;

/// How many portions of each job are measured, by turns, so that what else the
/// machine does hits all of them alike.
const ROUNDS: usize = 60;

/// How often that is done, with other work between.
const PASSES: usize = 3;

/// Where one call takes long, fewer rounds have to do.
const FEWEST_ROUNDS: usize = 8;
const LONG: Duration = Duration::from_secs(1);

/// One call of what is measured.
pub type Job<'a> = Box<dyn FnMut() + 'a>;

/// One answer to a workload's image.
pub fn job<'a>(one: &'a mut dyn Implementation, workload: &'a Workload) -> Job<'a> {
    let mut heap = vec![0; 2 * workload.words];
    let mut out = [0; 6];
    Box::new(move || {
        let image = black_box(&workload.image);
        one.answer(image, &mut heap, DEFAULT_LIMIT, &mut out);
        black_box(&out);
        black_box(&heap);
    })
}

/// Nanoseconds an image, for each workload of each implementation. Several
/// passes over all workloads, so that a machine that is slow for a while
/// doesn't stay in any row.
pub fn answers(
    implementations: &mut [Box<dyn Implementation>],
    workloads: &[Workload],
) -> Vec<Vec<f64>> {
    let mut least = vec![vec![f64::MAX; implementations.len()]; workloads.len()];
    for _ in 0..PASSES {
        for (workload, least) in workloads.iter().zip(&mut least) {
            let ones = implementations.iter_mut();
            let mut jobs: Vec<Job> = ones.map(|one| job(one.as_mut(), workload)).collect();
            rounds(&mut jobs, least);
        }
    }
    least
}

/// Nanoseconds a call of each job.
#[cfg(feature = "lua")]
pub fn side_by_side(jobs: &mut [Job]) -> Vec<f64> {
    let mut least = vec![f64::MAX; jobs.len()];
    for _ in 0..PASSES {
        rounds(jobs, &mut least);
    }
    least
}

/// The least of the rounds is kept, since all that others do can only add to
/// it.
fn rounds(jobs: &mut [Job], least: &mut [f64]) {
    let times: Vec<u64> = jobs.iter_mut().map(enough).collect();
    let start = Instant::now();
    for round in 0..ROUNDS {
        if round >= FEWEST_ROUNDS && start.elapsed() > LONG {
            break;
        }
        for (place, job) in jobs.iter_mut().enumerate() {
            let each = portion(job, times[place]) as f64 / times[place] as f64;
            least[place] = least[place].min(each);
        }
    }
}

/// Nanoseconds of one answer, for the search; the heap is used again and again.
pub fn once(one: &mut dyn Implementation, workload: &Workload, heap: &mut Vec<u64>) -> f64 {
    heap.resize(2 * workload.words, 0);
    let mut out = [0; 6];
    let start = clock::now();
    one.answer(&workload.image, heap, DEFAULT_LIMIT, &mut out);
    black_box(&out);
    (clock::now() - start) as f64
}

/// How many calls a portion has to have.
fn enough(job: &mut Job) -> u64 {
    let mut times = 1;
    while portion(job, times) < PORTION {
        times *= 2;
    }
    times
}

/// Nanoseconds of so many calls.
fn portion(job: &mut Job, times: u64) -> u64 {
    let start = clock::now();
    for _ in 0..times {
        job();
    }
    clock::now() - start
}
