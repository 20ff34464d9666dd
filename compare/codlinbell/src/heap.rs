//! Words of a lent heap.

use crate::kind::Kind;

/// More words than this are never used, however long the lent heap is.
pub const MOST_WORDS: usize = 4_096;

/// How many words a lent heap of so many numbers has: two numbers a word, at
/// most 4,096 words.
pub fn words(heap: &[u64]) -> usize {
    (heap.len() / 2).min(MOST_WORDS)
}

/// The word at an address from 1 on: its value and type, or None where it is
/// undefined or no word of this heap.
pub fn word(heap: &[u64], address: usize) -> Option<(u32, Kind)> {
    if address == 0 || address > words(heap) {
        return None;
    }
    let value = *heap.get(2 * (address - 1))?;
    let code = *heap.get(2 * (address - 1) + 1)?;
    Some((u32::try_from(value).ok()?, Kind::from_code(code)?))
}
