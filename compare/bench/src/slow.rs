//! The search for the slowest image.

use crate::knobs::{Ground, Join, Knobs, Script, GROUNDS, SCRIPTS};
use crate::workloads::Workload;
use generate::Dice;
use std::time::{Duration, Instant};

/// How it is searched, to be printed with what was found.
pub const HOW: &str = "\
One builder with knobs makes all candidates: what the cells hold (ints, structs,
arrays, both), how many there are, how far apart, how many of them are pointers,
how much these cover and where; how many type entries there are; what the
script's parts do (literals, pointer literals, reads, mallocs, blocks, deep
nests), two kinds mixed, joined by sums or lets, how many there are, and how much
a malloc takes. On each of the four kinds of heap every kind of script is tried
at full size. From the slowest of these, one to three knobs at a time are turned
at random, keeping what is slower: an eighth of the time on each kind of heap,
and the other half from the slowest of all. What is too long is cut to fit. Two
candidates are measured by turns, so that both meet the same machine.";

/// How many turns candidates get at most, and how many the slowest of each kind
/// of heap get.
const TURNS: usize = 4;
const LAST_TURNS: usize = 12;

/// How much slower the other one has to be; less may be chance, and would lead
/// anywhere.
const CLEARLY: f64 = 1.01;

pub struct Found {
    pub workload: Workload,
    pub knobs: Knobs,
    /// The time of the slowest on each kind of heap, as a part of the longest.
    pub by_ground: Vec<(Ground, f64)>,
    pub tried: u64,
}

#[derive(Clone)]
struct Candidate {
    knobs: Knobs,
    workload: Workload,
}

impl Candidate {
    fn new(knobs: &Knobs) -> Candidate {
        let knobs = knobs.fitted();
        Candidate {
            knobs,
            workload: knobs.workload(),
        }
    }
}

/// `time` measures one call.
struct Search<Time> {
    time: Time,
    dice: Dice,
    tried: u64,
}

/// The slowest image found; `long` is how long knobs are turned.
pub fn slowest(long: Duration, seed: u64, time: impl FnMut(&Workload) -> f64) -> Found {
    let mut search = Search {
        time,
        dice: Dice::new(seed),
        tried: 0,
    };
    let climbed = GROUNDS.map(|ground| {
        let start = search.best_start(ground);
        search.climbed(start, long / 8)
    });
    let times = search.by_turns(&climbed, LAST_TURNS);
    let best = place_of_slowest(&times);
    let parts = times.iter().map(|time| time / times[best]);
    let named = climbed.iter().map(|one| one.knobs.ground);
    let by_ground = named.zip(parts).collect();
    let Candidate { knobs, workload } = search.climbed(climbed[best].clone(), long / 2);
    Found {
        workload,
        knobs,
        by_ground,
        tried: search.tried,
    }
}

fn place_of_slowest(times: &[f64]) -> usize {
    let slower = |a: &usize, b: &usize| times[*a].total_cmp(&times[*b]);
    (0..times.len()).max_by(slower).unwrap_or(0)
}

impl<Time: FnMut(&Workload) -> f64> Search<Time> {
    fn best_start(&mut self, ground: Ground) -> Candidate {
        let starts: Vec<Candidate> = starts(ground).iter().map(Candidate::new).collect();
        self.tried += starts.len() as u64;
        let times = self.by_turns(&starts, TURNS);
        starts[place_of_slowest(&times)].clone()
    }

    fn climbed(&mut self, from: Candidate, long: Duration) -> Candidate {
        let mut best = from;
        let begun = Instant::now();
        while begun.elapsed() < long {
            let mut knobs = best.knobs;
            for _ in 0..self.dice.range(1, 3) {
                turn(&mut knobs, &mut self.dice);
            }
            let other = Candidate::new(&knobs);
            self.tried += 1;
            if self.is_slower(&other, &best) {
                best = other;
            }
        }
        best
    }

    /// Most candidates are far from the best, and one turn tells.
    fn is_slower(&mut self, other: &Candidate, best: &Candidate) -> bool {
        let (mut least, mut bar) = (f64::MAX, f64::MAX);
        for _ in 0..TURNS {
            bar = bar.min((self.time)(&best.workload));
            least = least.min((self.time)(&other.workload));
            if least < 0.9 * bar {
                return false;
            }
        }
        least > CLEARLY * bar
    }

    /// The least time of each.
    fn by_turns(&mut self, list: &[Candidate], turns: usize) -> Vec<f64> {
        let mut least = vec![f64::MAX; list.len()];
        for _ in 0..turns {
            for (one, least) in list.iter().zip(&mut least) {
                *least = least.min((self.time)(&one.workload));
            }
        }
        least
    }
}

/// Every script by itself and mixed with mallocs, joined both ways, everything
/// as large as it fits.
fn starts(ground: Ground) -> Vec<Knobs> {
    let mut list = Vec::new();
    for script in SCRIPTS {
        for join in [Join::Sums, Join::Lets] {
            for share in [0, 8] {
                let scripts = [script, Script::Mallocs];
                let near = full(ground, scripts, share, join);
                let far = Knobs { gap: 2, ..near };
                list.push(near);
                if ground == Ground::Ints {
                    list.push(far);
                }
            }
        }
    }
    list
}

fn full(ground: Ground, scripts: [Script; 2], share: u64, join: Join) -> Knobs {
    Knobs {
        ground,
        cells: 4_096,
        gap: 1,
        pointers: 32,
        width: 4_096,
        stride: 1,
        entries: 0,
        parts: 2_048,
        scripts,
        share,
        join,
        size: 2,
    }
}

/// Turns one knob.
fn turn(knobs: &mut Knobs, dice: &mut Dice) {
    match dice.below(12) {
        0 => knobs.cells = scaled(dice, knobs.cells),
        1 => knobs.gap = dice.range(1, 4),
        2 => knobs.pointers = scaled(dice, knobs.pointers),
        3 => knobs.width = scaled(dice, knobs.width),
        4 => knobs.stride = dice.below(9),
        5 => knobs.entries = dice.below(4) * 84,
        6 => knobs.parts = scaled(dice, knobs.parts),
        7 => knobs.scripts[0] = SCRIPTS[dice.index(SCRIPTS.len())],
        8 => knobs.scripts[1] = SCRIPTS[dice.index(SCRIPTS.len())],
        9 => knobs.share = dice.below(17),
        10 => knobs.join = [Join::Sums, Join::Lets][dice.index(2)],
        _ => knobs.size = scaled(dice, knobs.size),
    }
}

/// Half to twice as much, or nearly as much.
fn scaled(dice: &mut Dice, value: u64) -> u64 {
    let wide = dice.once_in(2);
    let of_sixteen = if wide {
        dice.range(8, 32)
    } else {
        dice.range(15, 17)
    };
    value * of_sixteen / 16 + dice.below(3)
}

#[cfg(test)]
mod tests {
    use super::*;
    use compare::check::DEFAULT_LIMIT;
    use compare::implementation::{Implementation, Tuned};

    /// One that is refused, or ends early, would only seem to be searched.
    fn assert_runs_to_its_end(knobs: &Knobs) {
        let workload = knobs.fitted().workload();
        let mut heap = vec![0; 2 * workload.words];
        let mut out = [0; 6];
        Tuned::new().answer(&workload.image, &mut heap, DEFAULT_LIMIT, &mut out);
        assert_eq!(out[..2], [1, 0], "{:?}", knobs.fitted());
    }

    #[test]
    fn every_start_runs_to_its_end() {
        for ground in GROUNDS {
            starts(ground).iter().for_each(assert_runs_to_its_end);
        }
    }

    #[test]
    fn whatever_is_turned_runs_to_its_end() {
        let mut dice = Dice::new(1);
        for ground in GROUNDS {
            for mut knobs in starts(ground) {
                for _ in 0..8 {
                    turn(&mut knobs, &mut dice);
                    assert_runs_to_its_end(&knobs);
                    knobs = knobs.fitted();
                }
            }
        }
    }
}
