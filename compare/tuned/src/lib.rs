//! The rules of 01 once more, written for speed: flat rows, nothing allocated
//! for an image, one pass over the image and one over the script. This is what
//! the proved library is measured against; it is compared with `second` as the
//! library is.
#![forbid(unsafe_code)]

mod answer;
mod cells;
mod codes;
mod free;
mod literal;
mod pass;
mod reader;
mod run;
mod script;
mod tables;

pub use answer::{Answer, End, Outcome, Refusal};

use answer::{refuse, FOLLOW, FORMAT, LIMIT};
use cells::{Cells, MOST_CELLS};
use free::Free;
use literal::Literals;
use pass::Frames;
use reader::Reader;
use run::{Run, Values};
use script::Script;
use tables::Tables;

const MOST_BYTES: usize = 16_384;

/// The rows that one answer needs, about 80 KiB, used again for the next.
pub struct Tuned {
    tables: Tables,
    cells: Cells,
    literals: Literals,
    frames: Frames,
    script: Script,
    free: Free,
    values: Values,
}

impl Default for Tuned {
    fn default() -> Tuned {
        Tuned::new()
    }
}

impl Tuned {
    pub const fn new() -> Tuned {
        Tuned {
            tables: Tables::new(),
            cells: Cells::new(),
            literals: Literals::new(),
            frames: Frames::new(),
            script: Script::new(),
            free: Free::new(),
            values: Values::new(),
        }
    }

    /// Loads, judges and runs an image over a lent heap of two numbers a word.
    /// What lies behind the first 4,096 words, and an odd last number, never
    /// changes; a refused image changes nothing.
    pub fn answer(&mut self, image: &[u8], heap: &mut [u64], limit: u64) -> Answer {
        let words = (heap.len() / 2).min(MOST_CELLS);
        let heap = &mut heap[..2 * words];
        match self.accept(image, words) {
            Err(refusal) => Answer::Refused(refusal),
            Ok(()) => Answer::Ran(self.run(heap, words, limit)),
        }
    }

    fn accept(&mut self, image: &[u8], words: usize) -> Result<(), Refusal> {
        if image.len() > MOST_BYTES {
            return refuse(LIMIT, 0);
        }
        let mut reader = Reader { image, at: 0 };
        if reader.number()? != 1 {
            return refuse(FORMAT, 0);
        }
        self.tables.read(&mut reader)?;
        self.cells.read(&mut reader, &self.tables, words as u32)?;
        self.literals.begin(&self.cells);
        let (end, fault) = pass::read(
            reader,
            &self.tables,
            &self.cells,
            &mut self.literals,
            &mut self.frames,
            &mut self.script,
        )?;
        if end < image.len() {
            return refuse(FOLLOW, end);
        }
        match fault {
            Some(fault) => Err(fault),
            None => Ok(()),
        }
    }

    fn run(&mut self, heap: &mut [u64], words: usize, limit: u64) -> Outcome {
        self.cells.write(heap);
        if self.script.allocates {
            self.free.begin(words, &self.cells);
        }
        let run = Run::new(&self.tables, &mut self.free, heap, &mut self.values);
        run.run(&self.script, limit)
    }
}
