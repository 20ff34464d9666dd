//! An image as data again: what `generate::bytes` wrote, read back. Only for
//! images that read whole; the others are changed byte by byte.

use generate::model::short::{assign, cast, field, let_in, literal, malloc};
use generate::model::short::{read, sum, unchecked, variable};
use generate::model::{Cell, Kind, Mode, Model, Node, Target};
use generate::outline;

/// Larger trees aren't read: nothing else bounds how deep an image nests.
const MOST_NODES: usize = 3_000;

/// The values of an image's numbers, in its order.
struct Numbers(std::vec::IntoIter<u64>);

/// The image's data, if all of it can be read and be written again.
pub fn model(image: &[u8]) -> Option<Model> {
    let outline = outline(image);
    if !outline.complete || outline.nodes.len() > MOST_NODES {
        return None;
    }
    let values: Vec<u64> = outline.numbers.iter().map(|seen| seen.value).collect();
    Numbers(values.into_iter()).model()
}

impl Numbers {
    fn next(&mut self) -> Option<u64> {
        self.0.next()
    }

    /// Counts are no larger than what follows: the outline has read it.
    fn list<T>(
        &mut self,
        count: u64,
        mut one: impl FnMut(&mut Numbers) -> Option<T>,
    ) -> Option<Vec<T>> {
        (0..count).map(|_| one(self)).collect()
    }

    fn model(mut self) -> Option<Model> {
        let _format = self.next()?;
        let structs = self.next()?;
        let types = self.next()?;
        Some(Model {
            structs: self.list(structs, |rest| {
                let fields = rest.next()?;
                rest.list(fields, Numbers::next)
            })?,
            types: self.list(types, Numbers::kind)?,
            cells: {
                let cells = self.next()?;
                self.list(cells, Numbers::cell)?
            },
            root: self.node()?,
        })
    }

    fn kind(&mut self) -> Option<Kind> {
        let mode = match self.next()? {
            0 => Mode::Checked,
            1 => Mode::Unchecked,
            _ => return None,
        };
        Some(Kind::Pointer(mode, self.target()?))
    }

    fn target(&mut self) -> Option<Target> {
        match self.next()? {
            0 => Some(Target::Word(self.next()?)),
            1 => Some(Target::Struct(self.next()?)),
            2 => Some(Target::Array {
                count: self.next()?,
                of: self.next()?,
            }),
            _ => None,
        }
    }

    fn cell(&mut self) -> Option<Cell> {
        Some(Cell {
            gap: self.next()?,
            value: self.next()?,
            of: self.next()?,
        })
    }

    fn node(&mut self) -> Option<Node> {
        Some(match self.next()? {
            0 => literal(self.next()?, self.next()?),
            1 => variable(self.next()?),
            2 => let_in(self.node()?, self.node()?),
            3 => malloc(self.target()?),
            4 => unchecked(self.node()?),
            5 => cast(self.next()?, self.node()?),
            6 => read(self.node()?),
            7 => assign(self.node()?, self.node()?),
            8 => sum(self.node()?, self.node()?),
            9 => field(self.next()?, self.node()?),
            _ => return None,
        })
    }
}
