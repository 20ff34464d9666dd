//! The tables that are printed.

use crate::slow::{Found, HOW};
use crate::workloads::Workload;
use generate::outline;

/// The one that ratios refer to.
pub const MEASURE: &str = "tuned";

/// What was measured of one implementation: nanoseconds and instructions of an
/// answer.
pub struct Figures {
    pub name: &'static str,
    pub time: f64,
    pub instructions: Option<u64>,
}

/// `second` is there to be compared with in what it answers; its instructions
/// say nothing.
pub fn is_counted(name: &str) -> bool {
    name != "second"
}

/// The table: a row for each workload.
pub fn print_table(workloads: &[Workload], rows: &[Vec<Figures>]) {
    let Some(first) = rows.first() else { return };
    let heads = heads(first);
    print_row("workload", &heads, &heads);
    for (workload, figures) in workloads.iter().zip(rows) {
        print_row(&workload.name, &heads, &entries(workload, figures));
    }
}

fn print_row(name: &str, heads: &[String], entries: &[String]) {
    print!("{name:<18}");
    for (head, entry) in heads.iter().zip(entries) {
        print!(" {entry:>width$}", width = head.len().max(6));
    }
    println!();
}

fn heads(figures: &[Figures]) -> Vec<String> {
    let mut heads = vec!["bytes".to_string(), "nodes".into(), "W".into()];
    heads.extend(figures.iter().map(|one| format!("{} ns", one.name)));
    let others = figures.iter().filter(|one| one.name != MEASURE);
    heads.extend(others.map(|one| format!("{}/{MEASURE}", one.name)));
    let counted = figures.iter().filter(|one| is_counted(one.name));
    heads.extend(counted.map(|one| format!("{} instr.", one.name)));
    heads
}

fn entries(workload: &Workload, figures: &[Figures]) -> Vec<String> {
    let nodes = outline(&workload.image).nodes.len();
    let sizes = [workload.image.len(), nodes, workload.words];
    let mut entries: Vec<String> = sizes.iter().map(usize::to_string).collect();
    entries.extend(figures.iter().map(|one| format!("{:.0}", one.time)));
    let base = figures.iter().find(|one| one.name == MEASURE);
    let base = base.map_or(f64::NAN, |one| one.time);
    let others = figures.iter().filter(|one| one.name != MEASURE);
    entries.extend(others.map(|one| format!("{:.2}", one.time / base)));
    let counted = figures.iter().filter(|one| is_counted(one.name));
    let count = |one: &Figures| one.instructions.map_or("-".into(), |n| n.to_string());
    entries.extend(counted.map(count));
    entries
}

/// What the slowest image is, and how it was searched for.
pub fn print_found(found: &Found, name: &str, seconds: u64, seed: u64) {
    println!("slowest found: {}", found.knobs.told());
    let tried = found.tried;
    println!("Searched by the time of {name}: {seconds} s, seed {seed}, {tried} images tried.");
    print!("Longest time on each kind of heap, as a part of the longest of all:");
    for (ground, part) in &found.by_ground {
        print!(" {ground:?} {part:.2}");
    }
    println!("\n{HOW}");
}
