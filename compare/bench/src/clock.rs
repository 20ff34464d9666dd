//! The clock that everything is measured with: the time that this thread has
//! spent on a processor. Waiting for one, on a machine that others use too,
//! isn't counted.

use std::sync::OnceLock;
use std::time::Instant;

/// Nanoseconds since some time before. Where the system doesn't tell what the
/// thread has spent, the usual clock's.
pub fn now() -> u64 {
    // Linux brings the count up to date when it looks for a thread to run.
    std::thread::yield_now();
    spent().unwrap_or_else(usual)
}

/// None where it isn't counted: no such file, or always 0.
fn spent() -> Option<u64> {
    let text = std::fs::read_to_string("/proc/thread-self/schedstat").ok()?;
    let nanoseconds = text.split_whitespace().next()?.parse().ok()?;
    (nanoseconds > 0).then_some(nanoseconds)
}

fn usual() -> u64 {
    static START: OnceLock<Instant> = OnceLock::new();
    START.get_or_init(Instant::now).elapsed().as_nanos() as u64
}
