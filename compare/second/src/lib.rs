//! A second, independent loader, type check and stepper for CoreChkC, in the
//! plainest form: a tree, recursion, replacement, and a map for the heap.
#![forbid(unsafe_code)]

mod expr;
mod heap;
mod image;
mod judge;
mod kind;
mod literal;
mod number;
mod refusal;
mod run;
mod show;
mod step;
mod tables;
mod typed;

#[cfg(test)]
mod inner_tests;

pub use image::MOST_BYTES;
pub use kind::{Kind, Mode};
pub use refusal::Refusal;
pub use run::{End, Outcome, DEFAULT_LIMIT};
pub use show::line;
pub use typed::stays_typed;

/// What an image answers.
#[derive(PartialEq, Eq, Clone, Copy, Debug)]
pub enum Answer {
    Refused(Refusal),
    Ran(Outcome),
}

/// A final heap: entry a-1 for address a, None for an undefined word.
pub type Words = Vec<Option<(u64, Kind)>>;

/// Loads, judges and runs an image over a heap of W words. On a refusal there is
/// no final heap: "On a refusal every heap word, beyond W too, is as it was."
pub fn answer(image: &[u8], words: usize, limit: u64) -> (Answer, Option<Words>) {
    match accepted(image, words) {
        Err(refusal) => (Answer::Refused(refusal), None),
        Ok(mut program) => {
            let outcome = run::run(&mut program, limit);
            let list = program.heap.list().into_iter();
            let words = list.map(|word| word.map(|value| (value.number, value.kind)));
            (Answer::Ran(outcome), Some(words.collect()))
        }
    }
}

/// "Typing starts after the whole image is read." "W from 0 to 4,096 (a longer
/// lent heap is used for its first 4,096 words, the rest never changing)".
fn accepted(image: &[u8], words: usize) -> Result<image::Program, Refusal> {
    let program = image::read_image(image, words.min(heap::MOST_WORDS))?;
    judge::type_of(&program)?;
    Ok(program)
}
