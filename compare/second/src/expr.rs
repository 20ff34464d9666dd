//! Expressions as trees, and their reader.

use crate::kind::{Kind, Target, Value};
use crate::number::Reader;
use crate::refusal::{refuse, Refusal, LIMIT, UNKNOWN};
use crate::tables::{read_target, read_word_type, Tables};

pub const MOST_NODES: usize = 2_048;
pub const MOST_DEPTH: usize = 64;

/// The ten nodes, in the order of their codes 0 to 9.
#[derive(Clone, Debug, PartialEq, Eq)]
pub enum Expr {
    Literal(Value),
    /// "variable (how many lets out, 0 the innermost)"
    Variable(u64),
    Let(Box<Expr>, Box<Expr>),
    Malloc(Target),
    Unchecked(Box<Expr>),
    Cast(Kind, Box<Expr>),
    Read(Box<Expr>),
    Assign(Box<Expr>, Box<Expr>),
    Sum(Box<Expr>, Box<Expr>),
    Field(u64, Box<Expr>),
}

impl Expr {
    pub fn is_value(&self) -> bool {
        matches!(self, Expr::Literal(_))
    }
}

/// "Expression nodes, written before their parts and numbered from 0 in that
/// order".
pub fn read_expression(reader: &mut Reader, tables: &Tables) -> Result<Expr, Refusal> {
    let mut nodes = Nodes {
        reader,
        tables,
        count: 0,
    };
    nodes.node(1, 0)
}

struct Nodes<'r, 'i, 't> {
    reader: &'r mut Reader<'i>,
    tables: &'t Tables,
    /// How many nodes have been begun.
    count: usize,
}

impl Nodes<'_, '_, '_> {
    /// One node with its parts. "the root being depth 1"; `lets` counts the
    /// lets that the node is inside of.
    fn node(&mut self, depth: usize, lets: u64) -> Result<Expr, Refusal> {
        let code = self.code(depth)?;
        let inner = depth + 1;
        Ok(match code {
            0 => self.literal()?,
            1 => Expr::Variable(self.reader.known(lets)?),
            2 => {
                // "A let's bound part is not inside that let."
                let bound = self.part(inner, lets)?;
                let body = self.part(inner, lets + 1)?;
                Expr::Let(bound, body)
            }
            3 => self.malloc()?,
            4 => Expr::Unchecked(self.part(inner, lets)?),
            5 => {
                let kind = self.word_type()?;
                Expr::Cast(kind, self.part(inner, lets)?)
            }
            6 => Expr::Read(self.part(inner, lets)?),
            7 => {
                let pointer = self.part(inner, lets)?;
                let value = self.part(inner, lets)?;
                Expr::Assign(pointer, value)
            }
            8 => {
                let left = self.part(inner, lets)?;
                let right = self.part(inner, lets)?;
                Expr::Sum(left, right)
            }
            _ => {
                // Any number that can be read; typing judges it.
                let field = self.reader.number()?.value;
                Expr::Field(field, self.part(inner, lets)?)
            }
        })
    }

    fn part(&mut self, depth: usize, lets: u64) -> Result<Box<Expr>, Refusal> {
        Ok(Box::new(self.node(depth, lets)?))
    }

    /// "At most 2,048 nodes; an expression nests at most 64 deep": fault 4 at
    /// the node's code, before fault 5 for a code above 9.
    fn code(&mut self, depth: usize) -> Result<u64, Refusal> {
        let code = self.reader.number()?;
        self.count += 1;
        if self.count > MOST_NODES || depth > MOST_DEPTH {
            return refuse(LIMIT, code.place);
        }
        if code.value > 9 {
            return refuse(UNKNOWN, code.place);
        }
        Ok(code.value)
    }

    /// "0 literal (value, word type)"
    fn literal(&mut self) -> Result<Expr, Refusal> {
        let number = self.reader.number()?.value;
        let kind = self.word_type()?;
        Ok(Expr::Literal(Value { number, kind }))
    }

    /// "3 malloc (target)"; here every word type number from 0 to T is known.
    fn malloc(&mut self) -> Result<Expr, Refusal> {
        let structs = self.tables.structs.len() as u64;
        let types = self.tables.types.len() as u64;
        let target = read_target(self.reader, structs, types)?;
        Ok(Expr::Malloc(target))
    }

    fn word_type(&mut self) -> Result<Kind, Refusal> {
        let types = self.tables.types.len() as u64;
        let number = read_word_type(self.reader, types)?;
        Ok(self.tables.kind(number))
    }
}
