//! Implementations of the rules of 01 compared: answer, steps, first and the
//! whole lent heap.
#![forbid(unsafe_code)]

pub mod check;
pub mod collect;
pub mod counts;
pub mod hex;
pub mod implementation;
pub mod many;
pub mod minimise;
pub mod replay;
pub mod signature;
