//! Numbers in the image.

use crate::refusal::{refuse, Refusal, ENDS, LIMIT, NUMBER, UNKNOWN};

/// A place in the image from which reading goes on.
pub struct Reader<'a> {
    image: &'a [u8],
    at: usize,
}

/// A number that was read, with the place of its first byte.
#[derive(Clone, Copy, Debug, PartialEq, Eq)]
pub struct Number {
    pub value: u64,
    pub place: usize,
}

impl<'a> Reader<'a> {
    pub fn new(image: &'a [u8]) -> Reader<'a> {
        Reader { image, at: 0 }
    }

    /// The place of the byte that is read next.
    pub fn place(&self) -> usize {
        self.at
    }

    /// Whether every byte has been read.
    pub fn at_end(&self) -> bool {
        self.at >= self.image.len()
    }

    /// "1 | the image ends inside a number or before the expression is
    /// complete | its length"
    fn byte(&mut self) -> Result<u8, Refusal> {
        match self.image.get(self.at) {
            Some(&byte) => {
                self.at += 1;
                Ok(byte)
            }
            None => refuse(ENDS, self.image.len()),
        }
    }

    /// "A number is written in groups of seven bits, lowest group first, one
    /// group in a byte; the top bit of a byte says that another follows."
    pub fn number(&mut self) -> Result<Number, Refusal> {
        let place = self.at;
        let mut value: u64 = 0;
        let mut weight: u64 = 1;
        let mut group = 1;
        loop {
            let byte = self.byte()?;
            // "A fifth byte above 0F is fault 2 even if the image ends there."
            if group == 5 && byte > 0x0F {
                return refuse(NUMBER, place);
            }
            value += u64::from(byte % 128) * weight;
            if byte < 128 {
                // "a last group of zero is allowed only if it is the sole group"
                if byte == 0 && group > 1 {
                    return refuse(NUMBER, place);
                }
                return Ok(Number { value, place });
            }
            weight *= 128;
            group += 1;
        }
    }

    /// A count from `least` to `most`, else fault 4 at its first byte.
    pub fn count(&mut self, least: u64, most: u64) -> Result<u64, Refusal> {
        let number = self.number()?;
        if number.value < least || number.value > most {
            return refuse(LIMIT, number.place);
        }
        Ok(number.value)
    }

    /// A number below `known`, else fault 5 at its first byte.
    pub fn known(&mut self, known: u64) -> Result<u64, Refusal> {
        let number = self.number()?;
        if number.value >= known {
            return refuse(UNKNOWN, number.place);
        }
        Ok(number.value)
    }
}
