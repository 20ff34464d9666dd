//! From data to numbers, each with its role, and from numbers to bytes.

use crate::model::{Cell, Kind, Mode, Model, Node, Target};

/// What a number says. A malloc's target has roles of its own, since the type
/// numbers known there are others than in the type list.
#[derive(Clone, Copy, Debug, PartialEq, Eq, PartialOrd, Ord)]
pub enum Role {
    Format,
    Structs,
    Types,
    FieldCount,
    FieldType,
    Mode,
    TargetKind,
    TargetCount,
    TargetType,
    TargetStruct,
    Cells,
    Gap,
    CellValue,
    CellType,
    Code,
    LiteralValue,
    LiteralType,
    Variable,
    MallocKind,
    MallocCount,
    MallocType,
    MallocStruct,
    CastType,
    FieldNumber,
}

#[derive(Clone, Copy, Debug, PartialEq, Eq)]
pub struct Number {
    pub role: Role,
    pub value: u64,
}

/// All numbers of an image, in its order.
pub fn numbers(model: &Model) -> Vec<Number> {
    let mut list = List(Vec::new());
    list.put(Role::Format, 1);
    list.put(Role::Structs, model.structs.len() as u64);
    list.put(Role::Types, model.types.len() as u64);
    for fields in &model.structs {
        list.fields(fields);
    }
    for kind in &model.types {
        list.entry(*kind);
    }
    list.put(Role::Cells, model.cells.len() as u64);
    for cell in &model.cells {
        list.cell(*cell);
    }
    list.node(&model.root);
    list.0
}

/// The image itself.
pub fn bytes(model: &Model) -> Vec<u8> {
    encode(&numbers(model))
}

pub fn encode(numbers: &[Number]) -> Vec<u8> {
    let mut bytes = Vec::new();
    for number in numbers {
        put_number(&mut bytes, number.value);
    }
    bytes
}

/// A number in its shortest writing, which for values of 2^32 and more is still
/// none that may be read.
pub fn put_number(bytes: &mut Vec<u8>, value: u64) {
    let mut rest = value;
    while rest >= 128 {
        bytes.push((rest % 128) as u8 | 128);
        rest /= 128;
    }
    bytes.push(rest as u8);
}

struct List(Vec<Number>);

impl List {
    fn put(&mut self, role: Role, value: u64) {
        self.0.push(Number { role, value });
    }

    fn fields(&mut self, fields: &[u64]) {
        self.put(Role::FieldCount, fields.len() as u64);
        for field in fields {
            self.put(Role::FieldType, *field);
        }
    }

    /// Int isn't written in the list of types; an entry of int would be a slip
    /// of the maker and is written as a pointer to int.
    fn entry(&mut self, kind: Kind) {
        let (mode, target) = match kind {
            Kind::Int => (Mode::Checked, Target::Word(0)),
            Kind::Pointer(mode, target) => (mode, target),
        };
        self.put(Role::Mode, u64::from(mode == Mode::Unchecked));
        let roles = [
            Role::TargetKind,
            Role::TargetCount,
            Role::TargetType,
            Role::TargetStruct,
        ];
        self.target(target, roles);
    }

    fn target(&mut self, target: Target, [kind, count, of, structure]: [Role; 4]) {
        match target {
            Target::Word(number) => {
                self.put(kind, 0);
                self.put(of, number);
            }
            Target::Struct(number) => {
                self.put(kind, 1);
                self.put(structure, number);
            }
            Target::Array {
                count: elements,
                of: number,
            } => {
                self.put(kind, 2);
                self.put(count, elements);
                self.put(of, number);
            }
        }
    }

    fn cell(&mut self, cell: Cell) {
        self.put(Role::Gap, cell.gap);
        self.put(Role::CellValue, cell.value);
        self.put(Role::CellType, cell.of);
    }

    fn node(&mut self, node: &Node) {
        self.put(Role::Code, code(node));
        match node {
            Node::Literal(value, of) => {
                self.put(Role::LiteralValue, *value);
                self.put(Role::LiteralType, *of);
            }
            Node::Variable(out) => self.put(Role::Variable, *out),
            Node::Malloc(target) => {
                let roles = [
                    Role::MallocKind,
                    Role::MallocCount,
                    Role::MallocType,
                    Role::MallocStruct,
                ];
                self.target(*target, roles);
            }
            Node::Cast(of, _) => self.put(Role::CastType, *of),
            Node::Field(number, _) => self.put(Role::FieldNumber, *number),
            Node::Let(..) | Node::Unchecked(_) => {}
            Node::Read(_) | Node::Assign(..) | Node::Sum(..) => {}
        }
        for part in node.parts() {
            self.node(part);
        }
    }
}

pub fn code(node: &Node) -> u64 {
    match node {
        Node::Literal(..) => 0,
        Node::Variable(_) => 1,
        Node::Let(..) => 2,
        Node::Malloc(_) => 3,
        Node::Unchecked(_) => 4,
        Node::Cast(..) => 5,
        Node::Read(_) => 6,
        Node::Assign(..) => 7,
        Node::Sum(..) => 8,
        Node::Field(..) => 9,
    }
}
