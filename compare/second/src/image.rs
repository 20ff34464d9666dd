//! The loader: the whole image, in its order.

use crate::expr::{read_expression, Expr};
use crate::heap::{read_heap, Heap};
use crate::number::Reader;
use crate::refusal::{refuse, Refusal, FOLLOW, FORMAT, LIMIT};
use crate::tables::{read_tables, Tables};

pub const MOST_BYTES: usize = 16_384;

/// An image that was read to its end without a fault.
#[derive(Clone, Debug, PartialEq, Eq)]
pub struct Program {
    pub tables: Tables,
    pub heap: Heap,
    pub expr: Expr,
}

/// "In this order, all of it numbers": the format, the tables, the cells, "The
/// expression; nothing after it."
pub fn read_image(image: &[u8], words: usize) -> Result<Program, Refusal> {
    // "The image's length is judged before anything is read."
    if image.len() > MOST_BYTES {
        return refuse(LIMIT, 0);
    }
    let mut reader = Reader::new(image);
    read_format(&mut reader)?;
    let tables = read_tables(&mut reader)?;
    let heap = read_heap(&mut reader, words, &tables.types)?;
    let expr = read_expression(&mut reader, &tables)?;
    // "8 | bytes follow the expression | the first of them"
    if !reader.at_end() {
        return refuse(FOLLOW, reader.place());
    }
    Ok(Program { tables, heap, expr })
}

/// "3 | the first number isn't 1 | byte 0"
fn read_format(reader: &mut Reader) -> Result<(), Refusal> {
    if reader.number()?.value != 1 {
        return refuse(FORMAT, 0);
    }
    Ok(())
}
