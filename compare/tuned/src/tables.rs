//! The structs and the pointer types, as flat rows.

use crate::answer::{refuse, Refusal, REPEAT};
use crate::codes::{self, CHECKED_STRUCT, CHECKED_WORD, INT, UNCHECKED};
use crate::reader::Reader;

const MOST_STRUCTS: u32 = 32;
const MOST_TYPES: u32 = 255;
const MOST_FIELDS: u32 = 16;
const MOST_ELEMENTS: u32 = 65_535;

/// From this many entries on, repeats are found by a hash row instead of by
/// looking at every earlier entry.
const MANY_TYPES: u32 = 24;
const SLOTS: usize = 512;

pub struct Tables {
    /// How many structs there are.
    structs: u32,
    sizes: [u8; 32],
    fields: [[u8; 16]; 32],
    /// How many word types there are, int included.
    pub known: u32,
    kinds: [u32; 256],
    /// Codes seen so far, by hash; 0 is an empty slot.
    slots: [u32; SLOTS],
}

impl Tables {
    pub const fn new() -> Tables {
        Tables {
            structs: 0,
            sizes: [0; 32],
            fields: [[0; 16]; 32],
            known: 1,
            kinds: [INT; 256],
            slots: [0; SLOTS],
        }
    }

    /// The kind with this word type number; the row is full, so no number that
    /// a code can hold is outside.
    #[inline(always)]
    pub fn kind(&self, number: usize) -> u32 {
        self.kinds[number & 255]
    }

    /// A struct's field types.
    #[inline(always)]
    pub fn fields(&self, number: usize) -> &[u8] {
        let size = usize::from(self.sizes[number & 31]);
        &self.fields[number & 31][..size.min(16)]
    }

    /// How many words a pointer's target has.
    #[inline(always)]
    pub fn size(&self, code: u32) -> u32 {
        match codes::tag(code) & !UNCHECKED {
            CHECKED_WORD => 1,
            CHECKED_STRUCT => self.sizes[codes::number(code) & 31].into(),
            _ => codes::count(code),
        }
    }

    /// The kind of a field's address, if `code` is a pointer to a struct that
    /// has the field.
    #[inline(always)]
    pub fn field_address(&self, code: u32, field: u32) -> Option<u32> {
        if codes::tag(code) & !UNCHECKED != CHECKED_STRUCT {
            return None;
        }
        // The field's address keeps the pointer's mode.
        let mode = code & UNCHECKED;
        let of = *self.fields(codes::number(code)).get(field as usize)?;
        Some(CHECKED_WORD | mode | u32::from(of) << 3)
    }

    pub fn read(&mut self, reader: &mut Reader) -> Result<(), Refusal> {
        self.structs = reader.count(0, MOST_STRUCTS)?;
        let types = reader.count(0, MOST_TYPES)?;
        for index in 0..self.structs as usize {
            self.read_struct(reader, index, types + 1)?;
        }
        self.read_types(reader, types)
    }

    fn read_struct(
        &mut self,
        reader: &mut Reader,
        index: usize,
        known: u32,
    ) -> Result<(), Refusal> {
        let size = reader.count(1, MOST_FIELDS)?;
        self.sizes[index & 31] = size as u8;
        for field in &mut self.fields[index & 31][..size as usize & 31] {
            *field = reader.known(known)? as u8;
        }
        Ok(())
    }

    fn read_types(&mut self, reader: &mut Reader, types: u32) -> Result<(), Refusal> {
        let many = types >= MANY_TYPES;
        if many {
            self.slots = [0; SLOTS];
        }
        for own in 1..=types {
            let place = reader.at;
            // 0 checked, 1 unchecked: as in a tag.
            let mode = reader.known(2)?;
            let code = self.read_target(reader, own)? | mode;
            let repeats = if many {
                self.repeats_hashed(code)
            } else {
                self.kinds[1..own as usize & 255].contains(&code)
            };
            if repeats {
                return refuse(REPEAT, place);
            }
            self.kinds[own as usize & 255] = code;
        }
        self.known = types + 1;
        Ok(())
    }

    /// Whether the code is in the hash row already; puts it there. At most 255
    /// of 512 slots are taken, so an empty one is always met.
    fn repeats_hashed(&mut self, code: u32) -> bool {
        let mut slot = (code.wrapping_mul(0x9E37_79B1) >> 23) as usize;
        loop {
            let held = &mut self.slots[slot & (SLOTS - 1)];
            if *held == 0 {
                *held = code;
                return false;
            }
            if *held == code {
                return true;
            }
            slot += 1;
        }
    }

    /// A target, as the code of a checked pointer to it. `known` bounds its word
    /// type number.
    #[inline(always)]
    pub fn read_target(&self, reader: &mut Reader, known: u32) -> Result<u32, Refusal> {
        let target = reader.known(3)?;
        let count = if target == 2 {
            reader.count(0, MOST_ELEMENTS)?
        } else {
            0
        };
        let known = if target == 1 { self.structs } else { known };
        let of = reader.known(known)?;
        Ok((CHECKED_WORD + 2 * target) | of << 3 | count << 11)
    }
}
