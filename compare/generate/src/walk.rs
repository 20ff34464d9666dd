//! Ways through a tree of nodes.

use crate::model::Node;

impl Node {
    pub fn parts(&self) -> Vec<&Node> {
        match self {
            Node::Literal(..) | Node::Variable(_) | Node::Malloc(_) => vec![],
            Node::Unchecked(part) | Node::Cast(_, part) => vec![part],
            Node::Read(part) | Node::Field(_, part) => vec![part],
            Node::Let(left, right) | Node::Assign(left, right) | Node::Sum(left, right) => {
                vec![left, right]
            }
        }
    }

    pub fn parts_mut(&mut self) -> Vec<&mut Node> {
        match self {
            Node::Literal(..) | Node::Variable(_) | Node::Malloc(_) => vec![],
            Node::Unchecked(part) | Node::Cast(_, part) => vec![part],
            Node::Read(part) | Node::Field(_, part) => vec![part],
            Node::Let(left, right) | Node::Assign(left, right) | Node::Sum(left, right) => {
                vec![left, right]
            }
        }
    }

    pub fn count(&self) -> usize {
        let parts = self.parts();
        1 + parts.into_iter().map(Node::count).sum::<usize>()
    }

    pub fn depth(&self) -> usize {
        let parts = self.parts();
        1 + parts.into_iter().map(Node::depth).max().unwrap_or(0)
    }

    /// The node with this number, in the order in which nodes are written.
    pub fn at_mut(&mut self, number: usize) -> Option<&mut Node> {
        if number == 0 {
            return Some(self);
        }
        let mut rest = number - 1;
        for part in self.parts_mut() {
            let count = part.count();
            if rest < count {
                return part.at_mut(rest);
            }
            rest -= count;
        }
        None
    }

    /// A copy of the node with this number.
    pub fn at(&self, number: usize) -> Option<Node> {
        if number == 0 {
            return Some(self.clone());
        }
        let mut rest = number - 1;
        for part in self.parts() {
            let count = part.count();
            if rest < count {
                return part.at(rest);
            }
            rest -= count;
        }
        None
    }
}
