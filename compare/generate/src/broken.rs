//! Scripts with one broken rule.

use crate::dice::Dice;
use crate::model::short::{assign, cast, field, literal, malloc, read, sum, variable};
use crate::model::{Cell, Kind, Mode, Model, Node, Target};
use crate::write::{encode, numbers, put_number, Number, Role};

/// Bytes of the model with one rule broken, and which one.
pub fn broken(dice: &mut Dice, model: &Model) -> (Vec<u8>, &'static str) {
    match dice.below(12) {
        0..=2 => broken_number(dice, model),
        3 => broken_writing(dice, model),
        4..=7 => broken_node(dice, model),
        8..=10 => broken_cell(dice, model),
        _ => broken_list(dice, model),
    }
}

/// One number of a role gets a value that it may not have, or just may.
fn broken_number(dice: &mut Dice, model: &Model) -> (Vec<u8>, &'static str) {
    let mut list = numbers(model);
    let place = some_role(dice, &list);
    let Some(number) = list.get(place).copied() else {
        return (encode(&list), "nothing to break");
    };
    let value = wrong_value(dice, number, model);
    list[place].value = value;
    (encode(&list), role_label(number.role))
}

/// Roles first, then one of its numbers: otherwise most would be cell values.
fn some_role(dice: &mut Dice, list: &[Number]) -> usize {
    let mut roles: Vec<Role> = list.iter().map(|number| number.role).collect();
    roles.sort_unstable();
    roles.dedup();
    let Some(role) = dice.pick(&roles) else {
        return 0;
    };
    let places = list.iter().enumerate().filter(|(_, n)| n.role == role);
    let places: Vec<usize> = places.map(|(place, _)| place).collect();
    dice.pick(&places).unwrap_or(0)
}

/// A value around the rule's border.
fn wrong_value(dice: &mut Dice, number: Number, model: &Model) -> u64 {
    let structs = model.structs.len() as u64;
    let types = model.types.len() as u64;
    let around = |dice: &mut Dice, border: u64| (border + dice.below(3)).saturating_sub(1);
    match number.role {
        Role::Format => dice.pick(&[0, 2, 127, 128]).unwrap_or(0),
        Role::Structs => dice.pick(&[33, 34, 255, structs + 1]).unwrap_or(33),
        Role::Types => dice.pick(&[256, 257, 65_536, types + 1]).unwrap_or(256),
        Role::FieldCount => dice.pick(&[0, 17, 18, number.value + 1]).unwrap_or(0),
        Role::FieldType | Role::CellType | Role::LiteralType => around(dice, types + 1),
        Role::CastType | Role::MallocType => around(dice, types + 1),
        Role::Mode => around(dice, 2),
        Role::TargetKind | Role::MallocKind => around(dice, 3),
        Role::TargetCount | Role::MallocCount => dice.pick(&[0, 65_535, 65_536]).unwrap_or(0),
        Role::TargetType => number.value + dice.below(types + 2),
        Role::TargetStruct | Role::MallocStruct => around(dice, structs),
        Role::Cells => dice
            .pick(&[4_097, 4_096, number.value + 1])
            .unwrap_or(4_097),
        Role::Gap => dice.pick(&[0, 0, 5, 4_097, 5_000]).unwrap_or(0),
        Role::Code => dice.range(0, 11),
        Role::Variable => dice.range(0, 5),
        Role::CellValue | Role::LiteralValue => dice.below(40),
        Role::FieldNumber => dice
            .pick(&[0, 1, 2, 3, 15, 16, u32::MAX.into()])
            .unwrap_or(0),
    }
}

fn role_label(role: Role) -> &'static str {
    match role {
        Role::Format => "number: format",
        Role::Structs => "number: structs",
        Role::Types => "number: types",
        Role::FieldCount => "number: field count",
        Role::FieldType => "number: field type",
        Role::Mode => "number: mode",
        Role::TargetKind => "number: target kind",
        Role::TargetCount => "number: target count",
        Role::TargetType => "number: target type",
        Role::TargetStruct => "number: target struct",
        Role::Cells => "number: cells",
        Role::Gap => "number: gap",
        Role::CellValue => "number: cell value",
        Role::CellType => "number: cell type",
        Role::Code => "number: code",
        Role::LiteralValue => "number: literal value",
        Role::LiteralType => "number: literal type",
        Role::Variable => "number: variable",
        Role::MallocKind => "number: malloc kind",
        Role::MallocCount => "number: malloc count",
        Role::MallocType => "number: malloc type",
        Role::MallocStruct => "number: malloc struct",
        Role::CastType => "number: cast type",
        Role::FieldNumber => "number: field number",
    }
}

/// One number is written too long or too large, or the image ends inside it.
fn broken_writing(dice: &mut Dice, model: &Model) -> (Vec<u8>, &'static str) {
    let list = numbers(model);
    let place = some_role(dice, &list);
    let before = list.get(..place).unwrap_or(&[]);
    let after = list.get(place + 1..).unwrap_or(&[]);
    let value = list.get(place).map_or(0, |number| number.value);
    let mut bytes = encode(before);
    let label = match dice.below(6) {
        0 => {
            put_number(&mut bytes, value);
            lengthen(&mut bytes);
            "writing: a zero group too many"
        }
        1 => {
            put_number(&mut bytes, (1 << 32) + dice.below(1 << 40));
            "writing: 2^32 and more"
        }
        2 => {
            bytes.extend([0xFF, 0xFF, 0xFF, 0xFF, dice.range(0x0E, 0x11) as u8]);
            "writing: fifth byte"
        }
        3 => {
            bytes.extend([0x80, 0x80, 0x80, 0x80, dice.below(256) as u8]);
            "writing: fifth byte behind zeros"
        }
        4 => {
            let groups = dice.range(1, 5) as usize;
            bytes.extend(vec![0x80 | dice.below(128) as u8; groups]);
            return (bytes, "writing: ends inside a number");
        }
        _ => {
            return (bytes, "writing: ends before a number");
        }
    };
    bytes.extend(encode(after));
    (bytes, label)
}

/// The last number gets another group, a zero.
fn lengthen(bytes: &mut Vec<u8>) {
    if let Some(last) = bytes.last_mut() {
        *last |= 128;
    }
    bytes.push(0);
}

/// One node is put, left out, wrapped or exchanged.
fn broken_node(dice: &mut Dice, model: &Model) -> (Vec<u8>, &'static str) {
    let mut model = model.clone();
    let count = model.root.count();
    let other = model.root.at(dice.index(count));
    let number = dice.index(count);
    let types = model.types.len() as u64;
    let Some(node) = model.root.at_mut(number) else {
        return (crate::write::bytes(&model), "nothing to break");
    };
    let old = node.clone();
    let (new, label) = match dice.below(12) {
        0 => (read(old), "node: a read put around"),
        1 => (field(dice.below(3), old), "node: a field put around"),
        2 => (cast(dice.below(types + 1), old), "node: a cast put around"),
        3 => (
            sum(old, literal(dice.below(3), 0)),
            "node: a sum put around",
        ),
        4 => (sum(literal(1, 0), old), "node: a sum put around, right"),
        5 => (
            literal(dice.below(20), dice.below(types + 1)),
            "node: a literal put for it",
        ),
        6 => (variable(dice.below(3)), "node: a variable put for it"),
        7 => (
            malloc(Target::Array { count: 0, of: 0 }),
            "node: a malloc of nothing",
        ),
        8 => (without_block(old), "node: a block left out"),
        9 => (first_part(old), "node: its first part put for it"),
        10 => (
            assign(old, literal(dice.below(3), dice.below(types + 1))),
            "node: an assign put around",
        ),
        _ => (other.unwrap_or(old), "node: another one put for it"),
    };
    *node = new;
    (crate::write::bytes(&model), label)
}

/// The first unchecked block on the way down is left out.
fn without_block(node: Node) -> Node {
    match node {
        Node::Unchecked(part) => *part,
        mut other => {
            if let Some(part) = other.parts_mut().into_iter().next() {
                let old = part.clone();
                *part = without_block(old);
            }
            other
        }
    }
}

fn first_part(node: Node) -> Node {
    let part = node.parts().first().map(|part| (*part).clone());
    part.unwrap_or(node)
}

/// One cell changes its type or value, or goes.
fn broken_cell(dice: &mut Dice, model: &Model) -> (Vec<u8>, &'static str) {
    let mut model = model.clone();
    let types = model.types.len() as u64;
    let place = dice.index(model.cells.len());
    let Some(cell) = model.cells.get_mut(place) else {
        return broken_node(dice, &model);
    };
    let label = match dice.below(4) {
        0 => {
            cell.of = dice.below(types + 1);
            "cell: another type"
        }
        1 => {
            cell.value = (cell.value + dice.below(3)).wrapping_sub(1) % (1 << 32);
            "cell: value next door"
        }
        2 => {
            cell.value = dice.below(60);
            "cell: another value"
        }
        _ => {
            drop_cell(&mut model, place);
            "cell: left out"
        }
    };
    (crate::write::bytes(&model), label)
}

/// Leaves a cell out; those behind it keep their addresses.
fn drop_cell(model: &mut Model, place: usize) {
    let gone: Cell = model.cells.remove(place);
    if let Some(next) = model.cells.get_mut(place) {
        next.gap += gone.gap;
    }
}

/// A repeated entry, a changed entry, a changed struct, or bytes that follow.
fn broken_list(dice: &mut Dice, model: &Model) -> (Vec<u8>, &'static str) {
    let mut model = model.clone();
    let types = model.types.len();
    match dice.below(4) {
        0 if types > 0 && types < 255 => {
            let from = dice.index(types);
            let entry = model.types[from];
            let to = dice.range(from as u64 + 1, types as u64) as usize;
            model.types.insert(to, entry);
            (crate::write::bytes(&model), "list: an entry repeated")
        }
        1 if types > 0 => {
            let place = dice.index(types);
            model.types[place] = nudged(dice, model.types[place]);
            (crate::write::bytes(&model), "list: an entry changed")
        }
        2 if !model.structs.is_empty() => {
            let place = dice.index(model.structs.len());
            let fields = &mut model.structs[place];
            let longer = dice.once_in(2);
            if longer && fields.len() < 17 {
                fields.push(dice.below(types as u64 + 1));
            } else {
                fields.pop();
            }
            (crate::write::bytes(&model), "list: a struct changed")
        }
        _ => {
            let mut bytes = crate::write::bytes(&model);
            for _ in 0..dice.range(1, 3) {
                bytes.push(dice.below(256) as u8);
            }
            (bytes, "list: bytes follow")
        }
    }
}

/// The same entry with another mode, count or number.
fn nudged(dice: &mut Dice, kind: Kind) -> Kind {
    let Kind::Pointer(mode, target) = kind else {
        return kind;
    };
    let other = match mode {
        Mode::Checked => Mode::Unchecked,
        Mode::Unchecked => Mode::Checked,
    };
    match (target, dice.below(3)) {
        (target, 0) => Kind::Pointer(other, target),
        (Target::Array { count, of }, 1) => {
            let count = (count + dice.below(3)).saturating_sub(1);
            Kind::Pointer(mode, Target::Array { count, of })
        }
        (Target::Array { count, of }, _) => {
            let of = of.saturating_sub(1);
            Kind::Pointer(mode, Target::Array { count, of })
        }
        (Target::Word(of), _) => Kind::Pointer(mode, Target::Array { count: 1, of }),
        (Target::Struct(of), _) => Kind::Pointer(mode, Target::Word(of)),
    }
}
