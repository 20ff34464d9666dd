//! Whether a literal is well typed over the image's cells.
//!
//! A literal is well typed exactly if every literal that can be reached from it
//! through checked pointers covers defined words of exactly the kinds it
//! claims. So each cell has to be looked at once only, whichever literal leads
//! to it: `seen` has a bit for each cell, and `queue` holds the seen ones that
//! are still to be looked at.

use crate::cells::{Cells, MOST_CELLS};
use crate::codes::{self, CHECKED_STRUCT, CHECKED_WORD};
use crate::tables::Tables;

pub struct Literals {
    seen: [u64; MOST_CELLS / 64],
    queue: [u16; MOST_CELLS],
    waiting: usize,
}

impl Literals {
    pub const fn new() -> Literals {
        Literals {
            seen: [0; MOST_CELLS / 64],
            queue: [0; MOST_CELLS],
            waiting: 0,
        }
    }

    /// Forgets the image before, as far as this one's cells go.
    pub fn begin(&mut self, cells: &Cells) {
        let used = cells.count.div_ceil(64).min(MOST_CELLS / 64);
        self.seen[..used].fill(0);
        self.waiting = 0;
    }

    /// Whether a literal that isn't plain is well typed. After a `false` the
    /// whole typing ends, so what is left of the queue doesn't matter.
    #[inline(never)]
    pub fn reached(&mut self, tables: &Tables, cells: &Cells, value: u32, kind: u32) -> bool {
        let (mut value, mut kind) = (value, kind);
        loop {
            if !self.covers(tables, cells, value, kind) {
                return false;
            }
            if self.waiting == 0 {
                return true;
            }
            self.waiting -= 1;
            let next = usize::from(self.queue[self.waiting & (MOST_CELLS - 1)]);
            value = cells.value[next & (MOST_CELLS - 1)];
            kind = cells.kind[next & (MOST_CELLS - 1)];
        }
    }

    /// Whether a checked pointer covers words of its kinds; these come into the
    /// queue unless they were there before.
    #[inline(always)]
    fn covers(&mut self, tables: &Tables, cells: &Cells, value: u32, kind: u32) -> bool {
        let Some(index) = cells.find(value) else {
            return false;
        };
        let of = codes::number(kind);
        match codes::tag(kind) {
            CHECKED_WORD => {
                let fits = cells.kind[index & (MOST_CELLS - 1)] == tables.kind(of);
                if fits {
                    self.see(cells, index);
                }
                fits
            }
            CHECKED_STRUCT => self.covers_struct(tables, cells, index, of),
            _ => self.covers_array(tables, cells, index, codes::count(kind), of),
        }
    }

    #[inline(always)]
    fn covers_struct(&mut self, tables: &Tables, cells: &Cells, index: usize, of: usize) -> bool {
        let fields = tables.fields(of);
        let last = index + fields.len() - 1;
        // Addresses rise, so none is missing between if the last is where it
        // has to be.
        if last >= cells.count.min(MOST_CELLS)
            || usize::from(cells.address[last] - cells.address[index]) != last - index
        {
            return false;
        }
        for (offset, &field) in fields.iter().enumerate() {
            if cells.kind[(index + offset) & (MOST_CELLS - 1)] != tables.kind(field.into()) {
                return false;
            }
            self.see(cells, index + offset);
        }
        true
    }

    #[inline(always)]
    fn covers_array(
        &mut self,
        tables: &Tables,
        cells: &Cells,
        index: usize,
        count: u32,
        of: usize,
    ) -> bool {
        let last = index + count as usize - 1;
        let element = tables.kind(of);
        if last >= cells.count.min(MOST_CELLS)
            || cells.kind[last] != element
            || u32::from(cells.alike[last]) < count
        {
            return false;
        }
        if codes::is_checked_pointer(element) {
            self.see_all(cells, index, last);
        }
        true
    }

    #[inline(always)]
    fn see(&mut self, cells: &Cells, index: usize) {
        let bit = 1 << (index % 64);
        let group = &mut self.seen[index / 64 % (MOST_CELLS / 64)];
        if *group & bit == 0 {
            *group |= bit;
            self.wait(cells, index);
        }
    }

    /// Sees a range, sixty-four cells at a time, so that arrays that overlap
    /// cost little where they were seen before.
    fn see_all(&mut self, cells: &Cells, index: usize, last: usize) {
        for group in index / 64..=last / 64 {
            let from = index.max(group * 64) % 64;
            let to = last.min(group * 64 + 63) % 64;
            let range = (!0 << from) & (!0 >> (63 - to));
            let seen = &mut self.seen[group % (MOST_CELLS / 64)];
            let mut fresh = range & !*seen;
            *seen |= range;
            while fresh != 0 {
                self.wait(cells, group * 64 + fresh.trailing_zeros() as usize);
                fresh &= fresh - 1;
            }
        }
    }

    /// A cell comes here once at most, so the queue never overflows.
    #[inline(always)]
    fn wait(&mut self, cells: &Cells, index: usize) {
        let index = index & (MOST_CELLS - 1);
        if !codes::is_plain(cells.value[index], cells.kind[index]) {
            self.queue[self.waiting & (MOST_CELLS - 1)] = index as u16;
            self.waiting += 1;
        }
    }
}
