//! The image's heap cells, in rows by index, until the image is accepted: a
//! refused image leaves the lent heap alone.

use crate::answer::{refuse, Refusal, ADDRESS, REPEAT};
use crate::reader::Reader;
use crate::tables::Tables;

pub const MOST_CELLS: usize = 4_096;

pub struct Cells {
    pub count: usize,
    /// Addresses, rising.
    pub address: [u16; MOST_CELLS],
    pub value: [u32; MOST_CELLS],
    pub kind: [u32; MOST_CELLS],
    /// How many cells up to this one lie side by side and have its kind, so
    /// that an array is checked by a look at its last word.
    pub alike: [u16; MOST_CELLS],
}

impl Cells {
    pub const fn new() -> Cells {
        Cells {
            count: 0,
            address: [0; MOST_CELLS],
            value: [0; MOST_CELLS],
            kind: [0; MOST_CELLS],
            alike: [0; MOST_CELLS],
        }
    }

    #[inline(never)]
    pub fn read(
        &mut self,
        reader: &mut Reader,
        tables: &Tables,
        words: u32,
    ) -> Result<(), Refusal> {
        let count = reader.count(0, MOST_CELLS as u32)? as usize;
        self.count = count;
        let mut address = 0;
        let mut kind = 0;
        let mut alike = 0;
        let rows = self.address.iter_mut().zip(&mut self.value);
        let rows = rows.zip(self.kind.iter_mut().zip(&mut self.alike));
        for ((to_address, to_value), (to_kind, to_alike)) in rows.take(count) {
            let (gap, value, of) = read_cell(reader, tables, words - address)?;
            address += gap;
            let next = tables.kind(of as usize);
            alike = if gap == 1 && next == kind {
                alike + 1
            } else {
                1
            };
            kind = next;
            *to_address = address as u16;
            *to_value = value;
            *to_kind = kind;
            *to_alike = alike;
        }
        Ok(())
    }

    /// The index of the cell with this address. The addresses rise from 1, so
    /// address a has at most index a - 1, and exactly that one if nothing below
    /// it is left out.
    #[inline(always)]
    pub fn find(&self, address: u32) -> Option<usize> {
        let most = (self.count & 8191).min(MOST_CELLS);
        let rows = &self.address[..most];
        let wanted = u16::try_from(address).ok()?;
        let guess = (address as usize).wrapping_sub(1).min(most.wrapping_sub(1));
        if *rows.get(guess)? == wanted {
            return Some(guess);
        }
        rows[..guess].binary_search(&wanted).ok()
    }

    /// Writes the accepted image's words into the lent heap; what the cells
    /// don't set becomes undefined.
    #[inline(never)]
    pub fn write(&self, heap: &mut [u64]) {
        let mut next = 0;
        for index in 0..self.count.min(MOST_CELLS) {
            let from = 2 * (usize::from(self.address[index]) - 1);
            if from != next {
                heap[next..from].fill(0);
            }
            next = from + 2;
            heap[from] = self.value[index].into();
            heap[from + 1] = self.kind[index].into();
        }
        heap[next..].fill(0);
    }
}

/// Gap, value and word type number of one cell. `room` is how far the address
/// may still rise.
#[inline(always)]
fn read_cell(reader: &mut Reader, tables: &Tables, room: u32) -> Result<(u32, u32, u32), Refusal> {
    let place = reader.at;
    let gap = reader.number()?;
    if gap == 0 {
        return refuse(REPEAT, place);
    }
    if gap > room {
        return refuse(ADDRESS, place);
    }
    let value = reader.value()?;
    let of = reader.known(tables.known)?;
    Ok((gap, value, of))
}
