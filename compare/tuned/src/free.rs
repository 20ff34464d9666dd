//! The undefined words as bits, for malloc.

use crate::cells::{Cells, MOST_CELLS};

const GROUPS: usize = MOST_CELLS / 64;

pub struct Free {
    /// Bit i of group g stands for address 64 g + i + 1; set if undefined.
    groups: [u64; GROUPS],
    /// How many groups the heap has.
    used: usize,
    /// Words are never freed, so no run of `size` words or more begins below
    /// group `from` once one of `size` words was found no lower.
    size: u32,
    from: usize,
}

impl Free {
    pub const fn new() -> Free {
        Free {
            groups: [0; GROUPS],
            used: 0,
            size: 0,
            from: 0,
        }
    }

    /// Every word of a heap of `words` words but the cells.
    pub fn begin(&mut self, words: usize, cells: &Cells) {
        self.used = words.div_ceil(64).min(GROUPS);
        self.groups[..self.used].fill(!0);
        let rest = words % 64;
        if rest > 0 {
            self.groups[words / 64 % GROUPS] = !(!0 << rest);
        }
        for &address in &cells.address[..cells.count.min(MOST_CELLS)] {
            let index = usize::from(address).wrapping_sub(1);
            self.groups[index / 64 % GROUPS] &= !(1 << (index % 64));
        }
        self.size = 0;
        self.from = 0;
    }

    /// Takes the lowest run of `size` words, size at least 1; gives its address.
    pub fn take(&mut self, size: u32) -> Option<u32> {
        let from = if size >= self.size { self.from } else { 0 };
        let start = self.lowest(size, from)?;
        self.size = size;
        self.from = start / 64;
        self.clear(start, size as usize);
        Some(start as u32 + 1)
    }

    fn lowest(&self, size: u32, from: usize) -> Option<usize> {
        // How many free words lie right before the group.
        let mut before = 0;
        for (group, &free) in self.groups[..self.used.min(GROUPS)]
            .iter()
            .enumerate()
            .skip(from)
        {
            if before + free.trailing_ones() >= size {
                return Some(group * 64 - before as usize);
            }
            if free == !0 {
                before += 64;
                continue;
            }
            if size < 64 {
                let starts = run_starts(free, size);
                if starts != 0 {
                    return Some(group * 64 + starts.trailing_zeros() as usize);
                }
            }
            before = free.leading_ones();
        }
        None
    }

    fn clear(&mut self, start: usize, size: usize) {
        let last = start + size - 1;
        for group in start / 64..=last / 64 {
            let from = start.max(group * 64) % 64;
            let to = last.min(group * 64 + 63) % 64;
            self.groups[group % GROUPS] &= !((!0 << from) & (!0 >> (63 - to)));
        }
    }
}

/// The bits at which a run of `size` set bits begins, `size` from 1 to 63. Each
/// round a bit stands for a run of `have` bits; twice as many if the bit `have`
/// further does too.
#[inline(always)]
fn run_starts(bits: u64, size: u32) -> u64 {
    let mut starts = bits;
    let mut have = 1;
    while have < size {
        let more = have.min(size - have);
        starts &= starts >> more;
        have += more;
    }
    starts
}
