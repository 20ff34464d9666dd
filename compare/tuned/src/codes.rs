//! Kinds as numbers: the code that also stands in the lent heap.
//!
//! tag = code % 8, number = code / 8 % 256, count = code / 2048 % 65536. A code
//! has 27 bits, so equal kinds are equal numbers and fit beside a five-bit
//! operation in one half of a u64 (see `script`).

pub const INT: u32 = 1;
pub const CHECKED_WORD: u32 = 2;
pub const CHECKED_STRUCT: u32 = 4;
pub const CHECKED_ARRAY: u32 = 6;
/// Added to a checked pointer's tag, it gives the unchecked one.
pub const UNCHECKED: u32 = 1;

/// How many bits a code has.
pub const BITS: u32 = 27;

#[inline(always)]
pub fn tag(code: u32) -> u32 {
    code & 7
}

/// A word type number or a struct number.
#[inline(always)]
pub fn number(code: u32) -> usize {
    (code >> 3 & 255) as usize
}

/// An array's element count; 0 for every other kind.
#[inline(always)]
pub fn count(code: u32) -> u32 {
    code >> 11
}

/// The code without its count, for an array whose count has to change.
#[inline(always)]
pub fn without_count(code: u32) -> u32 {
    code & 0x7FF
}

/// Checked pointers have the even tags; tag 0 is no kind.
#[inline(always)]
pub fn is_checked_pointer(code: u32) -> bool {
    code & UNCHECKED == 0
}

/// A literal that needs no look at the heap: "int, an unchecked pointer, a
/// checked pointer to an array of 0, or the value is 0".
#[inline(always)]
pub fn is_plain(value: u32, code: u32) -> bool {
    value == 0 || !is_checked_pointer(code) || (tag(code) == CHECKED_ARRAY && count(code) == 0)
}
