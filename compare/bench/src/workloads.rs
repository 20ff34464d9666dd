//! The workloads: what is small, what is usual, and what is largest.

use generate::bytes;
use generate::model::short::{array, cast, cell, field, int, let_in, literal, malloc, read};
use generate::model::short::{structure, sum, variable, word};
use generate::model::{Checked, Kind, Model, Node, Target, Unchecked};
use generate::parts::{list_cells, tree};

#[derive(Clone)]
pub struct Workload {
    pub name: String,
    pub image: Vec<u8>,
    /// The lent heap's words.
    pub words: usize,
}

impl Workload {
    pub fn new(name: &str, model: &Model, words: usize) -> Workload {
        Workload {
            name: name.to_string(),
            image: bytes(model),
            words,
        }
    }

    /// An image from a file, over the largest heap.
    pub fn from_file(file: &str) -> Option<Workload> {
        Some(Workload {
            name: file.to_string(),
            image: std::fs::read(file).ok()?,
            words: 4_096,
        })
    }
}

/// How many samples are summed where that is measured.
pub const SAMPLES: u64 = 256;

pub fn all() -> Vec<Workload> {
    vec![
        Workload::new("P2", &p2(), 16),
        sum_of_samples(),
        Workload::new("largest script", &largest_script(2_047), 16),
        Workload::new("fullest heap", &fullest_heap(), 4_096),
        Workload::new("reverse list", &reverse_list(2_048), 4_096),
        Workload::new("255 type entries", &type_entries(255), 16),
    ]
}

pub fn sum_of_samples() -> Workload {
    Workload::new("sum of 256 samples", &samples(SAMPLES), 1_024)
}

/// The third word of a fresh array of three.
fn p2() -> Model {
    let whole = malloc(Target::Array { count: 3, of: 0 });
    let third = read(sum(variable(0), int(2)));
    Model::bare(let_in(whole, third))
}

/// The sum over an array that the image sets, each sample read by its index.
fn samples(count: u64) -> Model {
    let mut index = 0;
    let mut read_next = || {
        index += 1;
        read(sum(variable(0), int(index - 1)))
    };
    let total = joined(count, &mut read_next, sum);
    Model {
        structs: vec![],
        types: vec![array(Checked, count, 0)],
        cells: (0..count).map(|place| cell(1, sample(place), 0)).collect(),
        root: let_in(literal(1, 1), total),
    }
}

pub fn sample(place: u64) -> u64 {
    place * 37 % 1_000
}

/// A balanced tree over so many parts, left to right.
pub fn joined(count: u64, part: &mut impl FnMut() -> Node, join: fn(Node, Node) -> Node) -> Node {
    if count <= 1 {
        return part();
    }
    let left = joined(count / 2, part, join);
    join(left, joined(count - count / 2, part, join))
}

/// A full tree of sums of literals.
pub fn largest_script(nodes: u64) -> Model {
    let mut value = 0;
    Model::bare(tree(nodes, &mut || {
        value += 1;
        int(value)
    }))
}

/// All 4,096 words set, and the image exactly as long as it may be: as many
/// values as possible have two bytes. One array covers them all.
fn fullest_heap() -> Model {
    let mut model = Model {
        structs: vec![],
        types: vec![array(Checked, 4_096, 0)],
        cells: (0..4_096).map(|place| cell(1, place % 128, 0)).collect(),
        root: read(sum(literal(1, 1), int(4_000))),
    };
    let missing = 16_384 - bytes(&model).len();
    for cell in model.cells.iter_mut().take(missing) {
        cell.value += 128;
    }
    model
}

/// Every node leads to the one below it, and the literal to the topmost.
pub fn reverse_list(nodes: u64) -> Model {
    Model {
        structs: vec![vec![0, 1]],
        types: vec![structure(Checked, 0)],
        cells: list_cells(nodes, true, 0),
        root: read(field(0, literal(2 * nodes - 1, 1))),
    }
}

/// Entries of every shape, no two equal.
fn type_entries(count: u64) -> Model {
    let types: Vec<Kind> = (0..count).map(entry).collect();
    Model {
        structs: vec![vec![0, 0]],
        types,
        cells: vec![],
        root: cast(0, literal(0, count)),
    }
}

fn entry(own: u64) -> Kind {
    let mode = match own % 2 {
        0 => Checked,
        _ => Unchecked,
    };
    match own % 3 {
        0 => word(mode, own),
        1 => array(mode, 65_535 - own, own),
        _ => array(mode, own, own / 2),
    }
}
