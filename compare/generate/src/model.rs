//! An image as data, before it is written.

pub use Mode::{Checked, Unchecked};

#[derive(Clone, Copy, Debug, PartialEq, Eq)]
pub enum Mode {
    Checked,
    Unchecked,
}

/// What a pointer points to. Numbers are wide, so that a broken rule can write
/// any.
#[derive(Clone, Copy, Debug, PartialEq, Eq)]
pub enum Target {
    Word(u64),
    Struct(u64),
    Array { count: u64, of: u64 },
}

#[derive(Clone, Copy, Debug, PartialEq, Eq)]
pub enum Kind {
    Int,
    Pointer(Mode, Target),
}

#[derive(Clone, Copy, Debug, PartialEq, Eq)]
pub struct Cell {
    pub gap: u64,
    pub value: u64,
    pub of: u64,
}

/// The ten nodes, in the order of their codes.
#[derive(Clone, Debug, PartialEq, Eq)]
pub enum Node {
    Literal(u64, u64),
    Variable(u64),
    Let(Box<Node>, Box<Node>),
    Malloc(Target),
    Unchecked(Box<Node>),
    Cast(u64, Box<Node>),
    Read(Box<Node>),
    Assign(Box<Node>, Box<Node>),
    Sum(Box<Node>, Box<Node>),
    Field(u64, Box<Node>),
}

/// Structs as lists of word type numbers; the pointer types from number 1 on.
#[derive(Clone, Debug, PartialEq, Eq)]
pub struct Model {
    pub structs: Vec<Vec<u64>>,
    pub types: Vec<Kind>,
    pub cells: Vec<Cell>,
    pub root: Node,
}

impl Model {
    /// An image that has only an expression.
    pub fn bare(root: Node) -> Model {
        Model {
            structs: Vec::new(),
            types: Vec::new(),
            cells: Vec::new(),
            root,
        }
    }

    /// The last cell's address: the least W with which no address is above it.
    pub fn last(&self) -> u64 {
        self.cells
            .iter()
            .fold(0, |sum: u64, cell| sum.saturating_add(cell.gap))
    }
}

/// Short ways to write nodes, for hand-made images.
pub mod short {
    use super::{Cell, Kind, Mode, Node, Target};

    pub fn literal(value: u64, of: u64) -> Node {
        Node::Literal(value, of)
    }

    pub fn int(value: u64) -> Node {
        Node::Literal(value, 0)
    }

    pub fn variable(out: u64) -> Node {
        Node::Variable(out)
    }

    pub fn let_in(bound: Node, body: Node) -> Node {
        Node::Let(Box::new(bound), Box::new(body))
    }

    pub fn malloc(target: Target) -> Node {
        Node::Malloc(target)
    }

    pub fn unchecked(part: Node) -> Node {
        Node::Unchecked(Box::new(part))
    }

    pub fn cast(of: u64, part: Node) -> Node {
        Node::Cast(of, Box::new(part))
    }

    pub fn read(part: Node) -> Node {
        Node::Read(Box::new(part))
    }

    pub fn assign(pointer: Node, value: Node) -> Node {
        Node::Assign(Box::new(pointer), Box::new(value))
    }

    pub fn sum(left: Node, right: Node) -> Node {
        Node::Sum(Box::new(left), Box::new(right))
    }

    pub fn field(number: u64, part: Node) -> Node {
        Node::Field(number, Box::new(part))
    }

    pub fn word(mode: Mode, of: u64) -> Kind {
        Kind::Pointer(mode, Target::Word(of))
    }

    pub fn structure(mode: Mode, of: u64) -> Kind {
        Kind::Pointer(mode, Target::Struct(of))
    }

    pub fn array(mode: Mode, count: u64, of: u64) -> Kind {
        Kind::Pointer(mode, Target::Array { count, of })
    }

    pub fn cell(gap: u64, value: u64, of: u64) -> Cell {
        Cell { gap, value, of }
    }
}
