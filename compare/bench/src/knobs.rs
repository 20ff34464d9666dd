//! The builder of the images among which the slowest is searched for: a heap
//! and a script with knobs for all that could take long.

use crate::workloads::{joined, Workload};
use generate::bytes;
use generate::model::short::{array, cast, cell, field, int, let_in, literal, malloc, read};
use generate::model::short::{structure, sum, unchecked, word};
use generate::model::{Cell, Checked, Kind, Model, Node, Target, Unchecked};

const MOST_BYTES: usize = 16_384;
const MOST_NODES: usize = 2_048;
const MOST_WORDS: u64 = 4_096;
const FEWEST_CELLS: u64 = 64;

/// What the cells hold.
#[derive(Clone, Copy, Debug, PartialEq, Eq)]
pub enum Ground {
    /// Ints, side by side or with gaps between, so that free words lie in
    /// fragments.
    Ints,
    /// Each cell points to a struct of such cells; they overlap.
    Structs,
    /// Ints, and behind them pointers to arrays of them; the arrays overlap.
    Arrays,
    /// Pointers to structs, and behind them pointers to arrays of them; the
    /// structs' fields are pointers of the second kind.
    Both,
}

pub const GROUNDS: [Ground; 4] = [Ground::Ints, Ground::Structs, Ground::Arrays, Ground::Both];

/// What a part of the script does.
#[derive(Clone, Copy, Debug, PartialEq, Eq)]
pub enum Script {
    Literals,
    /// Literals that have to be looked at over the heap.
    Pointers,
    Reads,
    Mallocs,
    Blocks,
    /// Many nodes above each other: casts, or ways through structs.
    Deep,
}

pub const SCRIPTS: [Script; 6] = [
    Script::Literals,
    Script::Pointers,
    Script::Reads,
    Script::Mallocs,
    Script::Blocks,
    Script::Deep,
];

/// What joins the parts. A let takes parts of any type, a sum ints only, so
/// that pointers need a cast.
#[derive(Clone, Copy, Debug, PartialEq, Eq)]
pub enum Join {
    Sums,
    Lets,
}

#[derive(Clone, Copy, Debug)]
pub struct Knobs {
    pub ground: Ground,
    pub cells: u64,
    pub gap: u64,
    /// Of 64 cells so many are pointers to arrays of the others.
    pub pointers: u64,
    /// How many words a pointer covers: no more than there are, and 16 at most
    /// if a struct's.
    pub width: u64,
    /// How far apart the targets of two neighbours begin; 0 if all pointers
    /// hold the same address.
    pub stride: u64,
    /// Type entries besides those that are used.
    pub entries: u64,
    pub parts: u64,
    /// Of 16 parts `share` do the second, the others the first.
    pub scripts: [Script; 2],
    pub share: u64,
    pub join: Join,
    /// How many words a malloc takes.
    pub size: u64,
}

/// The word types that are used: a plain pointer to int, and two that depend on
/// the ground.
const TO_INT: u64 = 1;
const HELD: u64 = 2;
const OVER: u64 = 3;

impl Knobs {
    pub fn workload(&self) -> Workload {
        Workload::new("slowest found", &self.model(), MOST_WORDS as usize)
    }

    pub fn told(&self) -> String {
        let [first, second] = self.scripts;
        let heap = format!(
            "heap {:?}, {} cells, gap {}, {} of 64 point to arrays, {} words covered, stride {}",
            self.ground,
            self.cells,
            self.gap,
            self.pointers,
            self.covered(),
            self.stride
        );
        let script = format!(
            "{} parts joined by {:?}, {} of 16 {second:?}, the others {first:?}, mallocs of {}",
            self.parts, self.join, self.share, self.size
        );
        format!("{heap};\n{script}; {} more type entries", self.entries)
    }

    fn model(&self) -> Model {
        let (held, over, of_struct) = match self.ground {
            Ground::Arrays => (array(Checked, self.covered(), 0), self.behind(), HELD),
            Ground::Both => (structure(Checked, 0), self.covered(), OVER),
            _ => (structure(Checked, 0), self.covered(), HELD),
        };
        let used = [word(Checked, 0), held, array(Checked, over, HELD)];
        let more = (0..self.entries).map(|own| array(Unchecked, own, 0));
        Model {
            structs: vec![vec![of_struct; self.fields() as usize]],
            types: used.into_iter().chain(more).collect::<Vec<Kind>>(),
            cells: (0..self.cells).map(|place| self.cell(place)).collect(),
            root: self.root(),
        }
    }

    /// How many cells lie behind the others and point to arrays of them.
    fn behind(&self) -> u64 {
        self.cells * self.pointers / 64
    }

    /// How many words an array has: not more than lie in front.
    fn covered(&self) -> u64 {
        self.width.min(self.cells - self.behind())
    }

    fn fields(&self) -> u64 {
        self.width.min(16).min(self.behind())
    }

    /// Where so many words that a pointer covers begin, among the first `of`
    /// cells.
    fn start(&self, place: u64, of: u64, words: u64) -> u64 {
        place * self.stride % (of + 1 - words.min(of)) + 1
    }

    fn cell(&self, place: u64) -> Cell {
        let gap = if place == 0 { 1 } else { self.gap };
        let behind = self.behind();
        let front = self.cells - behind;
        let to_array = self.start(place, front, self.covered());
        match self.ground {
            Ground::Ints => cell(gap, place % 100, 0),
            Ground::Structs => cell(gap, self.start(place, self.cells, self.fields()), HELD),
            Ground::Arrays if place < front => cell(gap, place % 100, 0),
            Ground::Arrays => cell(gap, to_array, HELD),
            Ground::Both if place < front => {
                cell(gap, front + self.start(place, behind, self.fields()), HELD)
            }
            Ground::Both => cell(gap, to_array, OVER),
        }
    }

    /// The first part reaches as many cells as one literal can.
    fn root(&self) -> Node {
        let mut place = 0;
        let mut part = || {
            place += 1;
            if place == 1 {
                return self.as_int(self.cover());
            }
            self.part(place)
        };
        let join = match self.join {
            Join::Sums => sum,
            Join::Lets => let_in,
        };
        joined(self.parts, &mut part, join)
    }

    fn cover(&self) -> Node {
        match self.ground {
            Ground::Arrays => literal(self.cells - self.behind() + 1, OVER),
            _ => self.pointer(0),
        }
    }

    fn script(&self, place: u64) -> Script {
        self.scripts[usize::from(place % 16 < self.share)]
    }

    fn part(&self, place: u64) -> Node {
        let spot = place * 2_654_435_761;
        let address = spot % self.cells * self.gap + 1;
        match self.script(place) {
            Script::Literals => int(place),
            Script::Pointers => self.as_int(self.pointer(spot)),
            Script::Reads => unchecked(read(cast(TO_INT, int(address)))),
            Script::Mallocs => self.as_int(malloc(Target::Array {
                count: self.size,
                of: 0,
            })),
            Script::Blocks => unchecked(cast(0, int(place))),
            Script::Deep => self.deep(spot),
        }
    }

    /// A literal that fits the ground.
    fn pointer(&self, spot: u64) -> Node {
        let front = self.cells - self.behind();
        match self.ground {
            Ground::Ints => literal(spot % self.cells * self.gap + 1, TO_INT),
            Ground::Structs => literal(self.start(spot, self.cells, self.fields()), HELD),
            Ground::Arrays => literal(self.start(spot, front, self.covered()), HELD),
            Ground::Both => literal(self.start(spot, front, self.covered()), OVER),
        }
    }

    fn deep(&self, spot: u64) -> Node {
        match self.ground {
            Ground::Structs => {
                let way = (0..10).fold(self.pointer(spot), |node, _| read(field(0, node)));
                self.as_int(way)
            }
            _ => (0..20).fold(int(spot % 100), |node, _| cast(0, node)),
        }
    }

    fn as_int(&self, node: Node) -> Node {
        match self.join {
            Join::Sums => cast(0, node),
            Join::Lets => node,
        }
    }

    /// Inside the limits: fewer parts or cells until the image is short enough.
    pub fn fitted(&self) -> Knobs {
        let mut knobs = self.clamped();
        loop {
            let model = knobs.model();
            let nodes = model.root.count();
            let over = bytes(&model).len().saturating_sub(MOST_BYTES) as u64;
            let too_many = nodes.saturating_sub(MOST_NODES) as u64;
            // Nodes and bytes of a part, rather too many than too few, so that
            // no more is taken away than has to be.
            let each = nodes as u64 / knobs.parts + 1;
            if too_many > 0 {
                knobs.parts = (knobs.parts - too_many.div_ceil(each)).max(1);
            } else if over > 0 && knobs.cells > knobs.parts {
                knobs.cells -= over.div_ceil(5);
            } else if over > 0 {
                knobs.parts = knobs.parts.saturating_sub(over.div_ceil(3 * each)).max(1);
            } else {
                return knobs;
            }
            knobs = knobs.clamped();
        }
    }

    /// Every knob within its own limits, and room for all mallocs behind the
    /// cells.
    fn clamped(&self) -> Knobs {
        let mut knobs = *self;
        // Only ints need not lie side by side.
        knobs.gap = match knobs.ground {
            Ground::Ints => knobs.gap.clamp(1, MOST_WORDS / FEWEST_CELLS / 2),
            _ => 1,
        };
        knobs.pointers = knobs.pointers.clamp(1, 63);
        knobs.stride = knobs.stride.min(64);
        knobs.entries = knobs.entries.min(255 - OVER);
        knobs.parts = knobs.parts.clamp(1, MOST_NODES as u64 / 2);
        knobs.share = knobs.share.min(16);
        let mallocs = knobs.mallocs().max(1);
        knobs.size = knobs.size.clamp(1, (MOST_WORDS / 2 / mallocs).max(1));
        let room = MOST_WORDS - mallocs * knobs.size;
        knobs.cells = knobs.cells.clamp(FEWEST_CELLS, room / knobs.gap);
        knobs.width = knobs.width.clamp(1, MOST_WORDS);
        knobs
    }

    fn mallocs(&self) -> u64 {
        let parts = 2..=self.parts;
        parts
            .filter(|place| self.script(*place) == Script::Mallocs)
            .count() as u64
    }
}
