//! A small writer of images for the tests, and short ways to ask.
#![allow(dead_code)]

use second::{answer, Answer, End, Kind, Mode, Outcome, Refusal, Words, DEFAULT_LIMIT};

pub type Bytes = Vec<u8>;

pub const C: Mode = Mode::Checked;
pub const U: Mode = Mode::Unchecked;
pub const INT: Kind = Kind::Int;

pub fn word(mode: Mode, of: u8) -> Kind {
    Kind::Word { mode, of }
}

pub fn strukt(mode: Mode, of: u8) -> Kind {
    Kind::Struct { mode, of }
}

pub fn array(mode: Mode, count: u16, of: u8) -> Kind {
    Kind::Array { mode, count, of }
}

/// Bytes written in hexadecimal.
pub fn hex(text: &str) -> Bytes {
    text.split_whitespace()
        .map(|byte| u8::from_str_radix(byte, 16).unwrap())
        .collect()
}

/// A number in its shortest writing.
pub fn n(value: u64) -> Bytes {
    let mut bytes = Vec::new();
    let mut rest = value;
    while rest >= 128 {
        bytes.push((rest % 128) as u8 + 128);
        rest /= 128;
    }
    bytes.push(rest as u8);
    bytes
}

pub fn join(parts: &[Bytes]) -> Bytes {
    parts.concat()
}

pub fn lit(value: u64, kind: u64) -> Bytes {
    join(&[n(0), n(value), n(kind)])
}

pub fn int(value: u64) -> Bytes {
    lit(value, 0)
}

pub fn var(out: u64) -> Bytes {
    join(&[n(1), n(out)])
}

pub fn let_in(bound: Bytes, body: Bytes) -> Bytes {
    join(&[n(2), bound, body])
}

pub fn malloc(target: Bytes) -> Bytes {
    join(&[n(3), target])
}

pub fn unchecked(part: Bytes) -> Bytes {
    join(&[n(4), part])
}

pub fn cast(kind: u64, part: Bytes) -> Bytes {
    join(&[n(5), n(kind), part])
}

pub fn read(part: Bytes) -> Bytes {
    join(&[n(6), part])
}

pub fn assign(pointer: Bytes, value: Bytes) -> Bytes {
    join(&[n(7), pointer, value])
}

pub fn sum(left: Bytes, right: Bytes) -> Bytes {
    join(&[n(8), left, right])
}

pub fn field(number: u64, part: Bytes) -> Bytes {
    join(&[n(9), n(number), part])
}

/// Targets.
pub fn to_word(of: u64) -> Bytes {
    join(&[n(0), n(of)])
}

pub fn to_struct(of: u64) -> Bytes {
    join(&[n(1), n(of)])
}

pub fn to_array(count: u64, of: u64) -> Bytes {
    join(&[n(2), n(count), n(of)])
}

/// Type entries.
pub fn c(target: Bytes) -> Bytes {
    join(&[n(0), target])
}

pub fn u(target: Bytes) -> Bytes {
    join(&[n(1), target])
}

/// All before the expression.
pub fn head(structs: &[Vec<u64>], types: &[Bytes], cells: &[(u64, u64, u64)]) -> Bytes {
    let mut bytes = n(1);
    bytes.extend(n(structs.len() as u64));
    bytes.extend(n(types.len() as u64));
    for fields in structs {
        bytes.extend(n(fields.len() as u64));
        for field in fields {
            bytes.extend(n(*field));
        }
    }
    for entry in types {
        bytes.extend(entry);
    }
    bytes.extend(n(cells.len() as u64));
    for (gap, value, kind) in cells {
        bytes.extend(join(&[n(*gap), n(*value), n(*kind)]));
    }
    bytes
}

pub fn image(
    structs: &[Vec<u64>],
    types: &[Bytes],
    cells: &[(u64, u64, u64)],
    expr: Bytes,
) -> Bytes {
    join(&[head(structs, types, cells), expr])
}

/// An image that has only an expression.
pub fn bare(expr: Bytes) -> Bytes {
    image(&[], &[], &[], expr)
}

pub fn refused(number: u8, place: usize) -> Answer {
    Answer::Refused(Refusal { number, place })
}

pub fn ran(end: End, steps: u64, first: u64) -> Answer {
    Answer::Ran(Outcome { end, steps, first })
}

pub fn value(value: u64, kind: Kind, steps: u64, first: u64) -> Answer {
    ran(End::Value { value, kind }, steps, first)
}

/// The answer with W = 16 and the default limit.
pub fn ask(image: &[u8]) -> Answer {
    ask_in(image, 16)
}

pub fn ask_in(image: &[u8], words: usize) -> Answer {
    answer(image, words, DEFAULT_LIMIT).0
}

pub fn ask_limit(image: &[u8], limit: u64) -> Answer {
    answer(image, 16, limit).0
}

pub fn ask_heap(image: &[u8], words: usize, limit: u64) -> (Answer, Words) {
    let (answer, heap) = answer(image, words, limit);
    (answer, heap.expect("an accepted image"))
}

/// A small generator of numbers for the random tests (xorshift).
pub struct Dice(pub u64);

impl Dice {
    pub fn roll(&mut self) -> u64 {
        self.0 ^= self.0 << 13;
        self.0 ^= self.0 >> 7;
        self.0 ^= self.0 << 17;
        self.0
    }

    pub fn below(&mut self, bound: u64) -> u64 {
        self.roll() % bound
    }
}
