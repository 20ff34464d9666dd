//! The implementations behind one trait, which is the C interface's function.

use second::{Answer, End, Kind, Mode};

pub trait Implementation {
    fn name(&self) -> &'static str;

    /// As `codlinbell_answer`: false and nothing changed where `out` has fewer
    /// than six numbers, else six numbers in `out` and true.
    fn answer(&mut self, image: &[u8], heap: &mut [u64], limit: u64, out: &mut [u64]) -> bool;
}

/// All there are, `second` first: it is the one that the others are held to.
pub fn all() -> Vec<Box<dyn Implementation>> {
    vec![
        Box::new(Second),
        Box::new(Tuned::new()),
        #[cfg(feature = "library")]
        Box::new(Library),
    ]
}

/// The independent second program, whose final heap is written into the lent
/// one here.
pub struct Second;

impl Implementation for Second {
    fn name(&self) -> &'static str {
        "second"
    }

    fn answer(&mut self, image: &[u8], heap: &mut [u64], limit: u64, out: &mut [u64]) -> bool {
        let Some(out) = out.get_mut(..6) else {
            return false;
        };
        let (answer, words) = second::answer(image, heap.len() / 2, limit);
        if let Some(words) = words {
            for (pair, word) in heap.chunks_exact_mut(2).zip(words) {
                let (value, code) = match word {
                    Some((value, kind)) => (value, kind_code(kind)),
                    None => (0, 0),
                };
                pair.copy_from_slice(&[value, code]);
            }
        }
        out.copy_from_slice(&numbers(answer));
        true
    }
}

fn numbers(answer: Answer) -> [u64; 6] {
    match answer {
        Answer::Refused(refusal) => [0, refusal.number.into(), refusal.place as u64, 0, 0, 0],
        Answer::Ran(run) => {
            let (end, value, kind) = match run.end {
                End::Value { value, kind } => (0, value, kind),
                End::Null => (1, 0, Kind::Int),
                End::Bounds => (2, 0, Kind::Int),
                End::Room => (3, 0, Kind::Int),
                End::Stuck => (4, 0, Kind::Int),
                End::More => (5, 0, Kind::Int),
            };
            [1, end, value, kind_code(kind), run.steps, run.first]
        }
    }
}

/// The code of a kind in the lent heap: tag, number, count.
fn kind_code(kind: Kind) -> u64 {
    let mode = |mode: Mode| u64::from(mode == Mode::Unchecked);
    let of = |of: u8| 8 * u64::from(of);
    match kind {
        Kind::Int => 1,
        Kind::Word {
            mode: m,
            of: number,
        } => 2 + mode(m) + of(number),
        Kind::Struct {
            mode: m,
            of: number,
        } => 4 + mode(m) + of(number),
        Kind::Array {
            mode: m,
            count,
            of: number,
        } => 6 + mode(m) + of(number) + 2_048 * u64::from(count),
    }
}

/// The implementation written for speed; its rows are used again and again, so
/// that what one image leaves behind would show in the next.
pub struct Tuned(Box<tuned::Tuned>);

impl Tuned {
    pub fn new() -> Tuned {
        Tuned(Box::new(tuned::Tuned::new()))
    }
}

impl Default for Tuned {
    fn default() -> Tuned {
        Tuned::new()
    }
}

impl Implementation for Tuned {
    fn name(&self) -> &'static str {
        "tuned"
    }

    fn answer(&mut self, image: &[u8], heap: &mut [u64], limit: u64, out: &mut [u64]) -> bool {
        let Some(out) = out.get_mut(..6) else {
            return false;
        };
        out.copy_from_slice(&self.0.answer(image, heap, limit).numbers());
        true
    }
}

/// The proved library, through its C interface.
#[cfg(feature = "library")]
pub struct Library;

#[cfg(feature = "library")]
impl Implementation for Library {
    fn name(&self) -> &'static str {
        "library"
    }

    fn answer(&mut self, image: &[u8], heap: &mut [u64], limit: u64, out: &mut [u64]) -> bool {
        codlinbell::answer_numbers(image, heap, limit, out)
    }
}
