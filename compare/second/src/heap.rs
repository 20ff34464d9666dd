//! The heap: W words, each undefined or a value with its type.

use crate::kind::{Kind, Value};
use crate::number::Reader;
use crate::refusal::{refuse, Refusal, ADDRESS, REPEAT};
use crate::tables::read_word_type;
use std::collections::BTreeMap;

pub const MOST_CELLS: u64 = 4_096;
pub const MOST_WORDS: usize = 4_096;

/// "The heap has W words, addresses 1 to W". The map holds the defined words
/// only; "Address 0 is never defined."
#[derive(Clone, Debug, PartialEq, Eq)]
pub struct Heap {
    words: u64,
    cells: BTreeMap<u64, Value>,
}

impl Heap {
    pub fn new(words: usize) -> Heap {
        Heap {
            words: words as u64,
            cells: BTreeMap::new(),
        }
    }

    pub fn get(&self, address: u64) -> Option<Value> {
        self.cells.get(&address).copied()
    }

    pub fn set(&mut self, address: u64, value: Value) {
        self.cells.insert(address, value);
    }

    /// The values from `address` on for `count` words, if all are defined: the
    /// range has `count` addresses, so all are defined if so many are found.
    pub fn run(&self, address: u64, count: u64) -> Option<Vec<Value>> {
        let found = self.cells.range(address..address + count);
        let values: Vec<Value> = found.map(|(_, value)| *value).collect();
        if values.len() as u64 == count {
            Some(values)
        } else {
            None
        }
    }

    /// "the lowest run of k consecutive undefined addresses within 1 to W".
    /// The lowest one begins at 1 or right behind a defined word (else it could
    /// begin one lower), so only those beginnings are tried, lowest first.
    pub fn free_run(&self, k: u64) -> Option<u64> {
        let mut start = 1;
        for &taken in self.cells.keys() {
            if taken >= start + k {
                return Some(start);
            }
            start = taken + 1;
        }
        if start + k <= self.words + 1 {
            Some(start)
        } else {
            None
        }
    }

    /// Entry a-1 for address a, as long as the heap.
    pub fn list(&self) -> Vec<Option<Value>> {
        (1..=self.words).map(|address| self.get(address)).collect()
    }
}

/// "C, heap cells, 0 to 4,096. For each: gap, value, word type number."
/// `types` gives the types by number. What the cells don't set is undefined: "On acceptance, before
/// the first step, every word from 1 to W that the image doesn't set is
/// undefined."
pub fn read_heap(reader: &mut Reader, words: usize, types: &[Kind]) -> Result<Heap, Refusal> {
    let count = reader.count(0, MOST_CELLS)?;
    let mut heap = Heap::new(words);
    let mut address = 0;
    for _ in 0..count {
        address = read_gap(reader, address, heap.words)?;
        let number = reader.number()?.value;
        let of = read_word_type(reader, types.len() as u64)?;
        let kind = types[usize::from(of)];
        heap.set(address, Value { number, kind });
    }
    Ok(heap)
}

/// "A cell's address is the one before it plus the gap, starting from 0; a gap
/// is at least 1." Judged before the cell's value is read.
fn read_gap(reader: &mut Reader, before: u64, words: u64) -> Result<u64, Refusal> {
    let gap = reader.number()?;
    if gap.value == 0 {
        return refuse(REPEAT, gap.place);
    }
    let address = before + gap.value;
    if address > words {
        return refuse(ADDRESS, gap.place);
    }
    Ok(address)
}
