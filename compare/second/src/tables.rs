//! The structs and the pointer types of an image.

use crate::kind::{Kind, Mode, Target};
use crate::number::Reader;
use crate::refusal::{refuse, Refusal, REPEAT};

pub const MOST_STRUCTS: u64 = 32;
pub const MOST_TYPES: u64 = 255;
pub const MOST_FIELDS: u64 = 16;
pub const MOST_ELEMENTS: u64 = 65_535;

/// `structs` gives each struct's field types as word type numbers; `types`
/// gives the type of each word type number, "Type 0 is int".
#[derive(Clone, Debug, PartialEq, Eq)]
pub struct Tables {
    pub structs: Vec<Vec<u8>>,
    pub types: Vec<Kind>,
}

impl Tables {
    /// The type with this word type number. The loader lets only known numbers
    /// pass (below T + 1), so the index is always inside.
    pub fn kind(&self, number: u8) -> Kind {
        self.types[usize::from(number)]
    }

    /// How many words a target has.
    pub fn size(&self, target: Target) -> u64 {
        match target {
            Target::Word { .. } => 1,
            Target::Struct { of } => self.structs[usize::from(of)].len() as u64,
            Target::Array { count, .. } => u64::from(count),
        }
    }

    /// The types of a target's words, in order.
    pub fn words(&self, target: Target) -> Vec<Kind> {
        match target {
            Target::Word { of } => vec![self.kind(of)],
            Target::Struct { of } => {
                let fields = &self.structs[usize::from(of)];
                fields.iter().map(|&number| self.kind(number)).collect()
            }
            Target::Array { count, of } => vec![self.kind(of); usize::from(count)],
        }
    }

    /// The word type number of a struct's field, if the struct has the field.
    pub fn field(&self, of: u8, field: u64) -> Option<u8> {
        let fields = &self.structs[usize::from(of)];
        let index = usize::try_from(field).ok()?;
        fields.get(index).copied()
    }
}

/// "S, structs, 0 to 32, numbered from 0. T, pointer types, 0 to 255." Then
/// the structs, then the pointer types.
pub fn read_tables(reader: &mut Reader) -> Result<Tables, Refusal> {
    let structs = reader.count(0, MOST_STRUCTS)?;
    let types = reader.count(0, MOST_TYPES)?;
    let structs = read_structs(reader, structs, types)?;
    let types = read_types(reader, structs.len() as u64, types)?;
    Ok(Tables { structs, types })
}

fn read_structs(reader: &mut Reader, structs: u64, types: u64) -> Result<Vec<Vec<u8>>, Refusal> {
    let mut list = Vec::new();
    for _ in 0..structs {
        list.push(read_struct(reader, types)?);
    }
    Ok(list)
}

/// "its field count, 1 to 16, and the word type number of each field, 0 to T"
fn read_struct(reader: &mut Reader, types: u64) -> Result<Vec<u8>, Refusal> {
    let count = reader.count(1, MOST_FIELDS)?;
    let mut fields = Vec::new();
    for _ in 0..count {
        fields.push(read_word_type(reader, types + 1)?);
    }
    Ok(fields)
}

/// "For each pointer type, numbered 1 to T: mode (0 checked, 1 unchecked),
/// then a target. Type 0 is int and isn't written."
fn read_types(reader: &mut Reader, structs: u64, types: u64) -> Result<Vec<Kind>, Refusal> {
    let mut list = vec![Kind::Int];
    for own in 1..=types {
        let place = reader.place();
        let mode = read_mode(reader)?;
        // "In the type list a target's word type number is below the entry's
        // own; another counts as unknown."
        let target = read_target(reader, structs, own)?;
        let kind = Kind::pointer(mode, target);
        // "a type entry repeats an earlier one": judged behind the entry's
        // last number, its place being the entry's first byte.
        if list.contains(&kind) {
            return refuse(REPEAT, place);
        }
        list.push(kind);
    }
    Ok(list)
}

fn read_mode(reader: &mut Reader) -> Result<Mode, Refusal> {
    match reader.known(2)? {
        0 => Ok(Mode::Checked),
        _ => Ok(Mode::Unchecked),
    }
}

/// "A target is 0 and a word type number; or 1 and a struct number; or 2, an
/// element count 0 to 65,535 and a word type number."
pub fn read_target(reader: &mut Reader, structs: u64, types: u64) -> Result<Target, Refusal> {
    match reader.known(3)? {
        0 => Ok(Target::Word {
            of: read_word_type(reader, types)?,
        }),
        1 => Ok(Target::Struct {
            of: reader.known(structs)? as u8, // below S, at most 32
        }),
        _ => {
            let count = reader.count(0, MOST_ELEMENTS)? as u16; // at most 65,535
            let of = read_word_type(reader, types)?;
            Ok(Target::Array { count, of })
        }
    }
}

/// A word type number below `known`, which is at most T + 1, so at most 256.
pub fn read_word_type(reader: &mut Reader, known: u64) -> Result<u8, Refusal> {
    Ok(reader.known(known)? as u8)
}
