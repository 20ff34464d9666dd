//! The sum of 256 samples beside what a user would embed instead: Lua 5.4,
//! which loads and runs a program for it. Every row gives the same number.

use crate::measure::{self, Job};
use crate::workloads::{sample, sum_of_samples, SAMPLES};
use compare::check::DEFAULT_LIMIT;
use compare::implementation::Implementation;
use lua::{Program, State};
use std::hint::black_box;

/// As one would write it.
const LOOP: &str = "\
local samples = ...
local total = 0
for i = 1, #samples do
  total = total + samples[i]
end
return total
";

/// As our script has to be: no loop, each sample by its index, a balanced tree.
fn unrolled() -> String {
    format!("local s = ...\nreturn {}\n", tree(1, SAMPLES))
}

fn tree(first: u64, count: u64) -> String {
    if count == 1 {
        return format!("s[{first}]");
    }
    let left = tree(first, count / 2);
    format!("({left}+{})", tree(first + count / 2, count - count / 2))
}

/// A row's name, and a call that gives the sum.
type Row<'a> = (String, Box<dyn FnMut() -> Option<i64> + 'a>);

pub fn print_all(implementations: &mut [Box<dyn Implementation>]) -> Result<(), String> {
    let samples: Vec<u32> = (0..SAMPLES).map(|place| sample(place) as u32).collect();
    let wanted: i64 = samples.iter().map(|sample| i64::from(*sample)).sum();
    let ours = implementations.iter_mut().map(|one| our_row(one.as_mut()));
    let lua = lua_rows(&samples).ok_or("Lua doesn't load its programs")?;
    let mut rows: Vec<Row> = ours.chain(lua).collect();
    for (name, call) in &mut rows {
        let got = call();
        if got != Some(wanted) {
            return Err(format!("{name}: {got:?} and not {wanted}"));
        }
    }
    let (names, calls): (Vec<String>, Vec<_>) = rows.into_iter().unzip();
    let mut jobs: Vec<Job> = calls.into_iter().map(as_job).collect();
    let times = measure::side_by_side(&mut jobs);
    drop(jobs);
    print_rows(implementations[0].name(), &names, &times);
    Ok(())
}

fn as_job<'a>(mut call: Box<dyn FnMut() -> Option<i64> + 'a>) -> Job<'a> {
    Box::new(move || {
        black_box(call());
    })
}

fn our_row(one: &mut dyn Implementation) -> Row<'_> {
    let name = format!("{}: load, judge, run", one.name());
    let workload = sum_of_samples();
    let mut heap = vec![0; 2 * workload.words];
    let mut out = [0; 6];
    let call = move || {
        one.answer(
            black_box(&workload.image),
            &mut heap,
            DEFAULT_LIMIT,
            &mut out,
        );
        let ended_with_value = out[..2] == [1, 0];
        ended_with_value.then_some(out[2] as i64)
    };
    (name, Box::new(call))
}

/// Each fills a table with the samples for every call, as our image carries
/// them, but for the last.
fn lua_rows(samples: &[u32]) -> Option<Vec<Row<'_>>> {
    let looped = || Program::text(LOOP);
    let mut rows = vec![
        fresh("unrolled text", Program::text(&unrolled()), samples),
        fresh(
            "unrolled bytecode",
            Program::bytecode(&unrolled())?,
            samples,
        ),
        fresh("text", looped(), samples),
        fresh("bytecode", Program::bytecode(LOOP)?, samples),
        lasting("text", looped(), samples)?,
        lasting("bytecode", Program::bytecode(LOOP)?, samples)?,
    ];
    let mut kept = State::new()?.keep(&looped(), samples)?;
    let name = "Lua, one state, loaded before: run".to_string();
    rows.push((name, Box::new(move || kept.run(black_box(samples)))));
    let mut kept = State::new()?.keep(&looped(), samples)?;
    let name = "Lua, one state, loaded before, table filled before: run".to_string();
    rows.push((name, Box::new(move || kept.run_again())));
    Some(rows)
}

/// A new state for every call, so that no script finds what another left: as
/// with ours, which starts from nothing.
fn fresh<'a>(what: &str, program: Program, samples: &'a [u32]) -> Row<'a> {
    let name = format!("Lua, fresh state, {what}: load, run");
    let call = move || State::new()?.load_and_run(black_box(&program), black_box(samples));
    (name, Box::new(call))
}

/// One state for all calls.
fn lasting<'a>(what: &str, program: Program, samples: &'a [u32]) -> Option<Row<'a>> {
    let name = format!("Lua, one state, {what}: load, run");
    let mut state = State::new()?;
    let call = move || state.load_and_run(black_box(&program), black_box(samples));
    Some((name, Box::new(call)))
}

/// Ratios to the first row, the library's where there is one.
fn print_rows(first: &str, names: &[String], times: &[f64]) {
    let title = "sum of 256 samples, one call";
    println!("{title:<56} {:>8} {:>10}", "ns", format!("/{first}"));
    for (name, time) in names.iter().zip(times) {
        println!("{name:<56} {time:>8.0} {:>10.2}", time / times[0]);
    }
}
