//! The type check, by recursion on the tree.

use crate::expr::Expr;
use crate::heap::Heap;
use crate::image::Program;
use crate::kind::{Kind, Mode, Target, Value};
use crate::literal::well_typed;
use crate::refusal::{refuse, Refusal, LITERAL, RULE};
use crate::tables::Tables;
use std::collections::BTreeSet;

/// The type of a program's expression. "Mode is checked at the root".
pub fn type_of(program: &Program) -> Result<Kind, Refusal> {
    let mut judge = Judge {
        tables: &program.tables,
        heap: &program.heap,
        lets: Vec::new(),
        begun: 0,
        seen: BTreeSet::new(),
    };
    judge.node(&program.expr, Mode::Checked)
}

struct Judge<'a> {
    tables: &'a Tables,
    heap: &'a Heap,
    /// The types of the lets around, the innermost last.
    lets: Vec<Kind>,
    /// How many nodes have been begun. Nodes are begun in the order in which
    /// they are written, so this gives each its number.
    begun: usize,
    /// The literals found well typed.
    seen: BTreeSet<Value>,
}

impl Judge<'_> {
    fn begin(&mut self) -> usize {
        let own = self.begun;
        self.begun += 1;
        own
    }

    /// "A node is judged after its parts, left before right, and the first to
    /// fail counts."
    fn node(&mut self, expr: &Expr, mode: Mode) -> Result<Kind, Refusal> {
        let own = self.begin();
        match expr {
            Expr::Literal(value) => self.literal(own, *value),
            Expr::Variable(out) => self.variable(own, *out),
            Expr::Let(bound, body) => self.let_in(bound, body, mode),
            Expr::Malloc(target) => self.malloc(own, *target),
            // "unchecked: its part's type, judged in unchecked mode."
            Expr::Unchecked(part) => self.node(part, Mode::Unchecked),
            Expr::Cast(kind, part) => self.cast(own, *kind, part, mode),
            Expr::Read(part) => self.read(own, part, mode),
            Expr::Assign(pointer, value) => self.assign(own, pointer, value, mode),
            Expr::Sum(left, right) => self.sum(own, left, right, mode),
            Expr::Field(field, part) => self.field(own, *field, part, mode),
        }
    }

    /// "A literal has its annotated type."
    fn literal(&mut self, own: usize, value: Value) -> Result<Kind, Refusal> {
        if well_typed(value, self.tables, self.heap, &mut self.seen) {
            Ok(value.kind)
        } else {
            refuse(LITERAL, own)
        }
    }

    /// T-Var. The loader lets no variable pass that has no let.
    fn variable(&mut self, own: usize, out: u64) -> Result<Kind, Refusal> {
        let from_innermost = self.lets.iter().rev();
        let mut outward = from_innermost.zip(0u64..);
        match outward.find(|(_, number)| *number == out) {
            Some((kind, _)) => Ok(*kind),
            None => refuse(RULE, own),
        }
    }

    /// T-Let.
    fn let_in(&mut self, bound: &Expr, body: &Expr, mode: Mode) -> Result<Kind, Refusal> {
        let kind = self.node(bound, mode)?;
        self.lets.push(kind);
        let result = self.node(body, mode)?;
        self.lets.pop();
        Ok(result)
    }

    /// "malloc of a target of more than 0 words: checked pointer to it."
    fn malloc(&mut self, own: usize, target: Target) -> Result<Kind, Refusal> {
        if self.tables.size(target) == 0 {
            return refuse(RULE, own);
        }
        Ok(Kind::pointer(Mode::Checked, target))
    }

    /// "Cast: the named type; in checked mode not a checked pointer."
    fn cast(&mut self, own: usize, kind: Kind, part: &Expr, mode: Mode) -> Result<Kind, Refusal> {
        self.node(part, mode)?;
        if mode == Mode::Checked && kind.is_checked_pointer() {
            return refuse(RULE, own);
        }
        Ok(kind)
    }

    /// "Field address: the part is a pointer to a struct that has the field;
    /// the result points to the field's type with the same mode."
    fn field(&mut self, own: usize, field: u64, part: &Expr, mode: Mode) -> Result<Kind, Refusal> {
        let kind = self.node(part, mode)?;
        match field_address(self.tables, kind, field) {
            Some(result) => Ok(result),
            None => refuse(RULE, own),
        }
    }

    /// "Sum: both int, result int."
    fn sum(&mut self, own: usize, left: &Expr, right: &Expr, mode: Mode) -> Result<Kind, Refusal> {
        let left = self.node(left, mode)?;
        let right = self.node(right, mode)?;
        plain_sum(own, left, right)
    }

    /// "Read and assign: the pointer's target is a word type or an array, and
    /// the result is that word or element type".
    fn read(&mut self, own: usize, part: &Expr, mode: Mode) -> Result<Kind, Refusal> {
        let pointer = self.accessed(part, mode)?;
        match self.element(pointer, mode) {
            Some(element) => Ok(element),
            None => refuse(RULE, own),
        }
    }

    /// "the value part has that type exactly"
    fn assign(
        &mut self,
        own: usize,
        part: &Expr,
        value: &Expr,
        mode: Mode,
    ) -> Result<Kind, Refusal> {
        let pointer = self.accessed(part, mode)?;
        let value = self.node(value, mode)?;
        match self.element(pointer, mode) {
            Some(element) if element == value => Ok(element),
            _ => refuse(RULE, own),
        }
    }

    /// The pointer that a read or assign goes through. "Directly under a read
    /// or as an assign's pointer part, however, an access judges the two sides
    /// of a sum itself: where the left is a pointer to an array and the right an
    /// int, the access has that array pointer. Any other sum there is judged as
    /// a plain sum, at its own number."
    fn accessed(&mut self, part: &Expr, mode: Mode) -> Result<Kind, Refusal> {
        let Expr::Sum(left, right) = part else {
            return self.node(part, mode);
        };
        let own = self.begin();
        let left = self.node(left, mode)?;
        let right = self.node(right, mode)?;
        match (left, right) {
            (Kind::Array { .. }, Kind::Int) => Ok(left),
            _ => plain_sum(own, left, right),
        }
    }

    /// What an access through a pointer gives, if it is allowed. "An unchecked
    /// pointer only in unchecked mode."
    fn element(&self, pointer: Kind, mode: Mode) -> Option<Kind> {
        let (own, of) = match pointer {
            Kind::Word { mode, of } => (mode, of),
            Kind::Array { mode, of, .. } => (mode, of),
            Kind::Int | Kind::Struct { .. } => return None,
        };
        if own == Mode::Unchecked && mode == Mode::Checked {
            return None;
        }
        Some(self.tables.kind(of))
    }
}

fn plain_sum(own: usize, left: Kind, right: Kind) -> Result<Kind, Refusal> {
    match (left, right) {
        (Kind::Int, Kind::Int) => Ok(Kind::Int),
        _ => refuse(RULE, own),
    }
}

/// The type of a field's address, if `kind` is a pointer to a struct that has
/// the field. "The paper prints one letter for this mode and the code's; they
/// are two": the mode is the pointer's, whatever the code's.
pub fn field_address(tables: &Tables, kind: Kind, field: u64) -> Option<Kind> {
    match kind {
        Kind::Struct { mode, of } => {
            let of = tables.field(of, field)?;
            Some(Kind::Word { mode, of })
        }
        _ => None,
    }
}
