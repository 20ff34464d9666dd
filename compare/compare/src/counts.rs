//! Counts by fault and by end.

use generate::Family;
use std::fmt;

pub const END_NAMES: [&str; 6] = ["value", "null", "bounds", "room", "stuck", "more"];

const LENGTH_NAMES: [&str; 6] = ["0", "1-3", "4-15", "16-63", "64-255", "256 and more"];

const FAULT_NAMES: [&str; 10] = [
    "image ends",
    "number",
    "format",
    "limit",
    "unknown",
    "repeat or gap 0",
    "address",
    "bytes follow",
    "no typing rule",
    "literal",
];

#[derive(Clone, Debug, Default)]
pub struct Counts {
    pub images: u64,
    pub runs: u64,
    pub steps: u64,
    /// Accepted runs without an unchecked step, on which demand 3 was checked.
    pub demand_3: u64,
    pub families: [u64; 5],
    /// Of all runs, and of each image's first one.
    pub faults: [u64; 11],
    pub first_faults: [u64; 11],
    /// By end, then first = 0 or not.
    pub ends: [[u64; 2]; 6],
    pub first_ends: [[u64; 2]; 6],
    /// Accepted runs by their steps: 0, below 4, below 16, ...
    pub lengths: [u64; LENGTH_NAMES.len()],
}

impl Counts {
    pub fn image(&mut self, family: Option<Family>) {
        self.images += 1;
        if let Some(family) = family {
            let place = Family::ALL.iter().position(|one| *one == family);
            if let Some(count) = place.and_then(|place| self.families.get_mut(place)) {
                *count += 1;
            }
        }
    }

    /// One run's six numbers; `opening` for an image's first run.
    pub fn run(&mut self, numbers: &[u64; 6], opening: bool) {
        self.runs += 1;
        let [ran, what, _, _, steps, first] = *numbers;
        if ran == 0 {
            add(&mut self.faults, what, 1);
            add(&mut self.first_faults, what, u64::from(opening));
            return;
        }
        self.steps += steps;
        self.demand_3 += u64::from(first == 0);
        add(&mut self.lengths, length_class(steps), 1);
        for (table, times) in [
            (&mut self.ends, 1),
            (&mut self.first_ends, u64::from(opening)),
        ] {
            if let Some(pair) = table.get_mut(what as usize) {
                add(pair, u64::from(first != 0), times);
            }
        }
    }

    pub fn merge(&mut self, other: &Counts) {
        self.images += other.images;
        self.runs += other.runs;
        self.steps += other.steps;
        self.demand_3 += other.demand_3;
        merge_row(&mut self.families, &other.families);
        merge_row(&mut self.lengths, &other.lengths);
        merge_row(&mut self.faults, &other.faults);
        merge_row(&mut self.first_faults, &other.first_faults);
        for end in 0..END_NAMES.len() {
            merge_row(&mut self.ends[end], &other.ends[end]);
            merge_row(&mut self.first_ends[end], &other.first_ends[end]);
        }
    }

    /// The faults and ends that never came up.
    pub fn missing(&self) -> Vec<String> {
        let mut list = Vec::new();
        for (place, name) in FAULT_NAMES.iter().enumerate() {
            if self.faults[place + 1] == 0 {
                list.push(format!("fault {} ({name})", place + 1));
            }
        }
        for (end, name) in END_NAMES.iter().enumerate() {
            if self.ends[end] == [0, 0] {
                list.push(format!("end {name}"));
            }
        }
        list
    }
}

/// Two bits of the step count a class.
fn length_class(steps: u64) -> u64 {
    let bits = u64::from(64 - steps.leading_zeros());
    bits.div_ceil(2).min(LENGTH_NAMES.len() as u64 - 1)
}

fn add(row: &mut [u64], place: u64, times: u64) {
    if let Some(count) = row.get_mut(place as usize) {
        *count += times;
    }
}

fn merge_row(row: &mut [u64], other: &[u64]) {
    for (to, from) in row.iter_mut().zip(other) {
        *to += from;
    }
}

impl fmt::Display for Counts {
    fn fmt(&self, to: &mut fmt::Formatter) -> fmt::Result {
        writeln!(
            to,
            "images {}, runs {}, steps {}",
            self.images, self.runs, self.steps
        )?;
        for (family, count) in Family::ALL.iter().zip(self.families) {
            if count > 0 {
                writeln!(to, "  {:<8} images {count:>9}", family.name())?;
            }
        }
        writeln!(to, "{:<26} {:>10} {:>10}", "fault", "first run", "all runs")?;
        for (place, name) in FAULT_NAMES.iter().enumerate() {
            let number = place + 1;
            let (first, all) = (self.first_faults[number], self.faults[number]);
            writeln!(to, "{number:>3} {name:<22} {first:>10} {all:>10}")?;
        }
        writeln!(to, "{:<26} {:>10} {:>10}", "end", "first run", "all runs")?;
        for (end, name) in END_NAMES.iter().enumerate() {
            for (unchecked, with) in ["checked only", "unchecked"].iter().enumerate() {
                let (first, all) = (self.first_ends[end][unchecked], self.ends[end][unchecked]);
                writeln!(to, "    {name:<8}{with:<14} {first:>10} {all:>10}")?;
            }
        }
        for (name, count) in LENGTH_NAMES.iter().zip(self.lengths) {
            writeln!(to, "    steps {name:<16} {:>10} {count:>10}", "")?;
        }
        write!(to, "demand 3 checked on {} runs", self.demand_3)
    }
}
