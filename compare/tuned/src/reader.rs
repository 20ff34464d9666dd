//! Numbers in the image.

use crate::answer::{refuse, Refusal, ENDS, LIMIT, NUMBER, UNKNOWN};

/// Small and passed by value where it matters, so that the compiler keeps it in
/// registers.
#[derive(Clone, Copy)]
pub struct Reader<'a> {
    pub image: &'a [u8],
    pub at: usize,
}

impl Reader<'_> {
    /// Nearly every number has one byte; the rest goes to a function that isn't
    /// copied into each caller.
    #[inline(always)]
    pub fn number(&mut self) -> Result<u32, Refusal> {
        match self.image.get(self.at) {
            Some(&byte) if byte < 128 => {
                self.at += 1;
                Ok(byte.into())
            }
            _ => {
                let (value, bytes) = long(self.image, self.at)?;
                self.at += usize::from(bytes);
                Ok(value)
            }
        }
    }

    /// A value: as `number`, but two bytes are usual too.
    #[inline(always)]
    pub fn value(&mut self) -> Result<u32, Refusal> {
        match self.image.get(self.at..) {
            Some(&[low, high, ..]) if low >= 128 && high < 128 && high != 0 => {
                self.at += 2;
                Ok(u32::from(low & 127) | u32::from(high) << 7)
            }
            _ => self.number(),
        }
    }

    /// A count from `least` to `most`.
    #[inline(always)]
    pub fn count(&mut self, least: u32, most: u32) -> Result<u32, Refusal> {
        let place = self.at;
        let value = self.number()?;
        if value < least || value > most {
            return refuse(LIMIT, place);
        }
        Ok(value)
    }

    /// A number below `known`.
    #[inline(always)]
    pub fn known(&mut self, known: u32) -> Result<u32, Refusal> {
        let place = self.at;
        let value = self.number()?;
        if value >= known {
            return refuse(UNKNOWN, place);
        }
        Ok(value)
    }
}

/// A number from its first byte on, and how many bytes it has.
#[inline(never)]
fn long(image: &[u8], place: usize) -> Result<(u32, u8), Refusal> {
    let mut value = 0;
    let mut groups = 0;
    for &byte in image.get(place..).unwrap_or(&[]) {
        // The fifth byte has four bits to give and nothing follows it.
        if groups == 4 && byte > 0x0F {
            return refuse(NUMBER, place);
        }
        value |= u32::from(byte & 127) << (7 * groups);
        groups += 1;
        if byte < 128 {
            if byte == 0 && groups > 1 {
                return refuse(NUMBER, place);
            }
            return Ok((value, groups));
        }
    }
    refuse(ENDS, image.len())
}
