//! Scripts that are well typed by the way they are made.

use crate::dice::Dice;
use crate::ground::{some_int, Ground};
use crate::model::short::{assign, cast, field, let_in, literal, malloc, read, sum};
use crate::model::short::{unchecked, variable};
use crate::model::{Checked, Kind, Mode, Node, Target, Unchecked};
use crate::tables::Tables;

/// How often what goes wrong, each once in so many; 0 is never.
#[derive(Clone, Copy, Debug)]
pub struct Style {
    /// An index outside its array.
    pub outside: u64,
    /// Wild reads and writes inside unchecked blocks.
    pub wild: u64,
    /// A malloc of many words.
    pub large: u64,
    /// Whether a leaf is rather allocated than null.
    pub careful: bool,
}

pub struct Maker<'a> {
    pub dice: &'a mut Dice,
    pub tables: &'a Tables,
    pub ground: &'a Ground,
    pub style: Style,
    /// How many nodes may still be made; leaves are made below 0 too.
    pub budget: i64,
    lets: Vec<Kind>,
}

impl<'a> Maker<'a> {
    pub fn new(
        dice: &'a mut Dice,
        tables: &'a Tables,
        ground: &'a Ground,
        style: Style,
        budget: i64,
    ) -> Maker<'a> {
        Maker {
            dice,
            tables,
            ground,
            style,
            budget,
            lets: Vec::new(),
        }
    }

    /// A script of some kind that nests at most about so deep.
    pub fn script(&mut self, depth: u64) -> Node {
        let want = match self.dice.below(3) {
            0 => Kind::Int,
            _ => self.tables.any(self.dice),
        };
        self.node(want, Checked, depth)
    }

    /// A node of a kind of which there can be a leaf.
    fn node(&mut self, want: Kind, mode: Mode, depth: u64) -> Node {
        self.budget -= 1;
        if depth == 0 || self.budget <= 0 {
            return self.leaf(want);
        }
        let inner = depth - 1;
        for _ in 0..6 {
            if let Some(node) = self.production(want, mode, inner) {
                return node;
            }
        }
        self.leaf(want)
    }

    fn production(&mut self, want: Kind, mode: Mode, inner: u64) -> Option<Node> {
        // While much is left to make, nodes with two parts, so that scripts
        // grow in breadth too.
        if self.budget > 40 && self.dice.once_in(2) {
            return match self.dice.below(3) {
                0 => Some(self.bind(want, mode, inner)),
                1 => self.assign_of(want, mode, inner),
                _ => self.sum_of(want, mode, inner),
            };
        }
        match self.dice.below(16) {
            0 if self.dice.once_in(2) => Some(self.leaf(want)),
            0..=3 => Some(self.bind(want, mode, inner)),
            4 => Some(unchecked(self.node(want, Unchecked, inner))),
            5 => self.cast_to(want, mode, inner),
            6..=8 => self.read_of(want, mode, inner),
            9..=11 => self.assign_of(want, mode, inner),
            12 | 13 => self.sum_of(want, mode, inner),
            14 => self.field_of(want, mode, inner),
            _ => self.wild_of(want, mode, inner),
        }
    }

    fn bind(&mut self, want: Kind, mode: Mode, inner: u64) -> Node {
        let kind = self.leaf_kind();
        let bound = self.node(kind, mode, inner);
        self.lets.push(kind);
        let body = self.node(want, mode, inner);
        self.lets.pop();
        let_in(bound, body)
    }

    /// Some kind of which there can be a leaf; not only one of the list.
    fn leaf_kind(&mut self) -> Kind {
        if self.dice.once_in(5) {
            let known = self.tables.kinds.len() as u64;
            let of = self.dice.below(known);
            let count = self.some_count();
            return Kind::Pointer(Checked, Target::Array { count, of });
        }
        self.tables.any(self.dice)
    }

    fn some_count(&mut self) -> u64 {
        if self.dice.once_in(self.style.large) {
            return self
                .dice
                .pick(&[200, 1_000, 1_024, 4_095, 4_096, 4_097, 65_535])
                .unwrap_or(200);
        }
        self.dice.range(1, 9)
    }

    /// "in checked mode not a checked pointer"
    fn cast_to(&mut self, want: Kind, mode: Mode, inner: u64) -> Option<Node> {
        let number = self.tables.number(want)?;
        if mode == Checked && matches!(want, Kind::Pointer(Checked, _)) {
            return None;
        }
        let from = self.leaf_kind();
        Some(cast(number, self.node(from, mode, inner)))
    }

    fn read_of(&mut self, want: Kind, mode: Mode, inner: u64) -> Option<Node> {
        let of = self.tables.number(want)?;
        Some(read(self.access(of, mode, inner)))
    }

    fn assign_of(&mut self, want: Kind, mode: Mode, inner: u64) -> Option<Node> {
        let of = self.tables.number(want)?;
        let pointer = self.access(of, mode, inner);
        Some(assign(pointer, self.node(want, mode, inner)))
    }

    fn sum_of(&mut self, want: Kind, mode: Mode, inner: u64) -> Option<Node> {
        if want != Kind::Int {
            return None;
        }
        let left = self.node(Kind::Int, mode, inner);
        Some(sum(left, self.node(Kind::Int, mode, inner)))
    }

    /// A pointer part through which words of type `of` are read or written.
    fn access(&mut self, of: u64, mode: Mode, inner: u64) -> Node {
        let kind = self.access_kind(of, mode);
        if let Kind::Pointer(_, Target::Array { count, .. }) = kind {
            if !self.dice.once_in(3) {
                self.budget -= 1;
                let left = self.node(kind, mode, inner);
                return sum(left, self.subscript(count, mode, inner));
            }
        }
        self.node(kind, mode, inner)
    }

    fn access_kind(&mut self, of: u64, mode: Mode) -> Kind {
        let fits = |kind: &&Kind| match **kind {
            Kind::Pointer(Unchecked, _) if mode == Checked => false,
            Kind::Pointer(_, Target::Word(to)) => to == of,
            Kind::Pointer(_, Target::Array { of: to, .. }) => to == of,
            _ => false,
        };
        let known: Vec<Kind> = self.tables.kinds.iter().filter(fits).copied().collect();
        let around: Vec<Kind> = self.lets.iter().filter(fits).copied().collect();
        let list = if self.dice.once_in(2) { around } else { known };
        match self.dice.pick(&list) {
            Some(kind) if !self.dice.once_in(6) => kind,
            _ if self.dice.once_in(2) => Kind::Pointer(Checked, Target::Word(of)),
            _ => {
                let count = self.some_count();
                Kind::Pointer(Checked, Target::Array { count, of })
            }
        }
    }

    fn subscript(&mut self, count: u64, mode: Mode, inner: u64) -> Node {
        if self.dice.once_in(self.style.outside) {
            let beyond = match self.dice.below(4) {
                0 => count,
                1 => count + self.dice.below(4),
                2 => some_int(self.dice),
                _ => (1 << 32) - 1 - self.dice.below(count + 2),
            };
            return literal(beyond, 0);
        }
        if self.dice.once_in(4) {
            return self.node(Kind::Int, mode, inner);
        }
        literal(self.dice.below(count), 0)
    }

    /// A field's address: some struct with a field of that type.
    fn field_of(&mut self, want: Kind, mode: Mode, inner: u64) -> Option<Node> {
        let Kind::Pointer(own, Target::Word(of)) = want else {
            return None;
        };
        let mut places = Vec::new();
        for (index, fields) in self.tables.structs.iter().enumerate() {
            let whole = Kind::Pointer(own, Target::Struct(index as u64));
            if self.tables.can_be_leaf(whole) {
                let found = fields.iter().enumerate().filter(|(_, to)| **to == of);
                places.extend(found.map(|(place, _)| (place as u64, whole)));
            }
        }
        let (place, whole) = self.dice.pick(&places)?;
        Some(field(place, self.node(whole, mode, inner)))
    }

    /// A read or write through an unchecked pointer that may lead anywhere, so
    /// that kinds in the heap stop being what the script says.
    fn wild_of(&mut self, want: Kind, mode: Mode, inner: u64) -> Option<Node> {
        if !self.dice.once_in(self.style.wild) {
            return None;
        }
        let of = self.tables.number(want)?;
        let pointer = self.wild_pointer(of)?;
        let access = if self.dice.once_in(3) {
            assign(pointer, self.node(want, Unchecked, inner))
        } else {
            read(pointer)
        };
        Some(match mode {
            Unchecked => access,
            Checked => unchecked(access),
        })
    }

    fn wild_pointer(&mut self, of: u64) -> Option<Node> {
        let fits = |kind: &Kind| match *kind {
            Kind::Pointer(_, Target::Word(to)) => to == of,
            Kind::Pointer(_, Target::Array { of: to, .. }) => to == of,
            _ => false,
        };
        let kinds = self.tables.kinds.iter().zip(0u64..);
        let numbers: Vec<u64> = kinds.filter(|(k, _)| fits(k)).map(|(_, n)| n).collect();
        let number = self.dice.pick(&numbers)?;
        let address = self.ground.some_address(self.dice);
        let start = cast(number, literal(address, 0));
        match self.tables.kind(number) {
            Kind::Pointer(_, Target::Array { .. }) if self.dice.once_in(2) => {
                Some(sum(start, literal(some_int(self.dice), 0)))
            }
            _ => Some(start),
        }
    }

    fn leaf(&mut self, want: Kind) -> Node {
        if let Some(node) = self.use_of(want) {
            return node;
        }
        let number = self.tables.number(want);
        let allocated = match want {
            Kind::Pointer(Checked, target) if self.tables.size(target) > 0 => Some(target),
            _ => None,
        };
        let Some(target) = allocated else {
            return literal(self.some_value(want), number.unwrap_or(0));
        };
        match number {
            Some(number) if !self.dice.once_in(3) => {
                let value = self.some_value(want);
                if value == 0 && self.style.careful {
                    return malloc(target);
                }
                literal(value, number)
            }
            _ => malloc(target),
        }
    }

    /// A value with which a literal of this kind is well typed.
    fn some_value(&mut self, want: Kind) -> u64 {
        let near = self.dice.below(self.ground.reach() + 1);
        self.ground
            .fitting_value(self.dice, self.tables, want, near)
    }

    /// A variable of this kind, more often than not if there is one.
    fn use_of(&mut self, want: Kind) -> Option<Node> {
        let around = self.lets.iter().rev().zip(0u64..);
        let fitting: Vec<u64> = around
            .filter(|(kind, _)| **kind == want)
            .map(|(_, out)| out)
            .collect();
        if self.dice.once_in(4) {
            return None;
        }
        self.dice.pick(&fitting).map(variable)
    }
}
