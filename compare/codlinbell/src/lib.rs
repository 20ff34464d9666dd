//! Safe Rust over codlinbell, the proved script interpreter.
//!
//! A script is an image of at most 16,384 bytes. It is loaded, judged and run
//! over a heap that the caller lends: two `u64` a word, at most 4,096 words. A
//! refused image leaves the heap as it was; an accepted one makes every word
//! that it doesn't set undefined, and then runs.
//!
//! ```
//! use codlinbell::{answer, Answer, End, Kind, Reading};
//!
//! // 2 + 3
//! let image = [1, 0, 0, 0, 8, 0, 2, 0, 0, 3, 0];
//! let mut heap = [0; 32]; // sixteen words
//! let answer = answer(&image, &mut heap);
//! assert_eq!(answer.reading(), Reading::Number(5));
//! let Answer::Ran(run) = answer else { unreachable!() };
//! assert_eq!(run.end, End::Value { value: 5, kind: Kind::Int });
//! assert_eq!((run.steps, run.first_unchecked), (1, None));
//! ```
//!
//! What is proved is proved of the library behind the C function; this crate is
//! a thin layer over it, with one unsafe block: the call.
#![deny(unsafe_code)]

mod answer;
mod foreign;
mod heap;
mod kind;

pub use answer::{Answer, End, Fault, Outcome, Reading, Refusal};
pub use foreign::answer_numbers;
pub use heap::{word, words, MOST_WORDS};
pub use kind::{Kind, Mode};

/// The step limit where none is named.
pub const DEFAULT_LIMIT: u64 = 100_000;

/// Loads, judges and runs an image with the default limit.
pub fn answer(image: &[u8], heap: &mut [u64]) -> Answer {
    answer_within(image, heap, DEFAULT_LIMIT)
}

/// Loads, judges and runs an image, taking at most `limit` steps.
///
/// # Panics
///
/// If the library answers numbers that stand for no answer. Its contract rules
/// that out for every image, heap and limit; a library that does so isn't the
/// proved one.
pub fn answer_within(image: &[u8], heap: &mut [u64], limit: u64) -> Answer {
    let mut out = [0; 6];
    let answered = answer_numbers(image, heap, limit, &mut out);
    match Answer::from_numbers(out) {
        Some(answer) if answered => answer,
        _ => panic!("libcodlinbell.a breaks its contract: {answered}, {out:?}"),
    }
}
