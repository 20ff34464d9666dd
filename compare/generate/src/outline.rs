//! What the numbers of an image say, read without judging: every number with
//! its place and role, and the nodes with their parts, as far as the image can
//! be read at all.

use crate::write::Role;

#[derive(Clone, Copy, Debug, PartialEq, Eq)]
pub struct Seen {
    pub place: usize,
    pub value: u64,
    pub role: Role,
}

#[derive(Clone, Debug, PartialEq, Eq)]
pub struct NodeSeen {
    pub code: u64,
    pub parent: Option<usize>,
    pub parts: Vec<usize>,
}

#[derive(Clone, Debug)]
pub struct Outline {
    pub numbers: Vec<Seen>,
    pub nodes: Vec<NodeSeen>,
    /// Whether the expression is complete.
    pub complete: bool,
    /// What was to be read where reading ended, if it isn't complete.
    pub wanted: Option<Role>,
}

impl Outline {
    /// The role of the number at a place.
    pub fn role_at(&self, place: usize) -> Option<Role> {
        let found = self.numbers.iter().find(|seen| seen.place == place);
        found.map(|seen| seen.role)
    }

    /// How many nodes are steps: "the count of nodes of codes 2 to 9".
    pub fn operators(&self) -> u64 {
        self.nodes.iter().filter(|node| node.code >= 2).count() as u64
    }

    /// The nodes that are steps, in the order in which they step: parts first,
    /// but a let between its bound part and its body.
    pub fn steps(&self) -> Vec<usize> {
        let mut order = Vec::new();
        let mut stack = vec![(0usize, 0usize)];
        while let Some((number, done)) = stack.pop() {
            let Some(node) = self.nodes.get(number) else {
                continue;
            };
            let own_turn = if node.code == 2 { 1 } else { node.parts.len() };
            if done == own_turn && node.code >= 2 {
                order.push(number);
            }
            if let Some(part) = node.parts.get(done) {
                stack.push((number, done + 1));
                stack.push((*part, 0));
            }
        }
        order
    }
}

struct Reader<'a> {
    image: &'a [u8],
    at: usize,
    outline: Outline,
}

/// Reads as far as it goes.
pub fn outline(image: &[u8]) -> Outline {
    let mut reader = Reader {
        image,
        at: 0,
        outline: Outline {
            numbers: Vec::new(),
            nodes: Vec::new(),
            complete: false,
            wanted: None,
        },
    };
    reader.outline.complete = reader.image().is_some();
    reader.outline
}

impl Reader<'_> {
    fn image(&mut self) -> Option<()> {
        self.number(Role::Format)?;
        let structs = self.number(Role::Structs)?;
        let types = self.number(Role::Types)?;
        for _ in 0..structs {
            for _ in 0..self.number(Role::FieldCount)? {
                self.number(Role::FieldType)?;
            }
        }
        for _ in 0..types {
            self.number(Role::Mode)?;
            self.target([
                Role::TargetKind,
                Role::TargetCount,
                Role::TargetType,
                Role::TargetStruct,
            ])?;
        }
        for _ in 0..self.number(Role::Cells)? {
            self.number(Role::Gap)?;
            self.number(Role::CellValue)?;
            self.number(Role::CellType)?;
        }
        self.expression()
    }

    fn number(&mut self, role: Role) -> Option<u64> {
        self.outline.wanted = Some(role);
        let place = self.at;
        let mut value = 0u64;
        let mut shift = 0;
        loop {
            let byte = *self.image.get(self.at)?;
            self.at += 1;
            value |= u64::from(byte % 128).checked_shl(shift)?;
            shift += 7;
            if byte < 128 {
                break;
            }
            if shift > 28 {
                return None;
            }
        }
        self.outline.numbers.push(Seen { place, value, role });
        self.outline.wanted = None;
        Some(value)
    }

    fn target(&mut self, [kind, count, of, structure]: [Role; 4]) -> Option<()> {
        match self.number(kind)? {
            0 => self.number(of)?,
            1 => self.number(structure)?,
            2 => {
                self.number(count)?;
                self.number(of)?
            }
            _ => return None,
        };
        Some(())
    }

    /// With a list of open parents instead of recursion: nothing here bounds
    /// how deep an image nests.
    fn expression(&mut self) -> Option<()> {
        let mut open: Vec<(usize, usize)> = Vec::new();
        loop {
            let parent = open.last().map(|(number, _)| *number);
            let number = self.outline.nodes.len();
            let parts = self.node(parent)?;
            if let Some(parent) = parent {
                self.outline.nodes.get_mut(parent)?.parts.push(number);
            }
            if let Some((_, missing)) = open.last_mut() {
                *missing -= 1;
            }
            if parts > 0 {
                open.push((number, parts));
            }
            while matches!(open.last(), Some((_, 0))) {
                open.pop();
            }
            if open.is_empty() {
                return Some(());
            }
        }
    }

    /// One node without its parts; gives how many follow.
    fn node(&mut self, parent: Option<usize>) -> Option<usize> {
        let code = self.number(Role::Code)?;
        self.outline.nodes.push(NodeSeen {
            code,
            parent,
            parts: Vec::new(),
        });
        match code {
            0 => {
                self.number(Role::LiteralValue)?;
                self.number(Role::LiteralType)?;
                Some(0)
            }
            1 => self.number(Role::Variable).map(|_| 0),
            3 => self
                .target([
                    Role::MallocKind,
                    Role::MallocCount,
                    Role::MallocType,
                    Role::MallocStruct,
                ])
                .map(|()| 0),
            5 => self.number(Role::CastType).map(|_| 1),
            9 => self.number(Role::FieldNumber).map(|_| 1),
            4 | 6 => Some(1),
            2 | 7 | 8 => Some(2),
            _ => None,
        }
    }
}
