//! The expression read, judged and written as a row of operations, in one pass
//! without recursion: the nodes around the one being read are frames in a row.
//!
//! A fault of reading goes before every fault of typing, so the first fault of
//! typing is only kept, and reading goes on.

use crate::answer::{refuse, Refusal, LIMIT, LITERAL, RULE, UNKNOWN};
use crate::cells::Cells;
use crate::codes::{self, CHECKED_ARRAY, CHECKED_STRUCT, INT, UNCHECKED};
use crate::literal::Literals;
use crate::reader::Reader;
use crate::script::{code, operation, pack, Script, MOST_DEPTH, MOST_NODES};
use crate::tables::Tables;

/// What a frame waits for. The first parts have the numbers of the node codes.
mod stage {
    /// Below the root: nothing more.
    pub const ROOT: u32 = 0;
    pub const LET_BOUND: u32 = 2;
    pub const BLOCK: u32 = 4;
    pub const CAST: u32 = 5;
    pub const READ: u32 = 6;
    pub const ASSIGN_POINTER: u32 = 7;
    pub const SUM_LEFT: u32 = 8;
    pub const FIELD: u32 = 9;
    pub const LET_BODY: u32 = 10;
    pub const ASSIGN_VALUE: u32 = 11;
    pub const SUM_RIGHT: u32 = 12;
    /// A sum that an access judges.
    pub const ACCESS_LEFT: u32 = 13;
    pub const ACCESS_RIGHT: u32 = 14;
}

/// A node whose parts are being read.
#[derive(Clone, Copy)]
struct Frame {
    /// What it needs to remember: a cast's kind, a field's number, the steps
    /// before a block, or the left part's kind.
    note: u32,
    /// The node's number, then its stage.
    own_and_stage: u32,
}

impl Frame {
    #[inline(always)]
    fn new(stage: u32, own: u32, note: u32) -> Frame {
        Frame {
            note,
            own_and_stage: own << 8 | stage,
        }
    }

    #[inline(always)]
    fn stage(self) -> u32 {
        self.own_and_stage & 255
    }

    #[inline(always)]
    fn own(self) -> u32 {
        self.own_and_stage >> 8
    }
}

/// One frame for each depth and one below the root; twice as many as there are
/// depths, so that a masked index needs no further check.
const ROW: usize = 2 * MOST_DEPTH;

/// The rows that a pass needs, kept from image to image.
pub struct Frames {
    frames: [Frame; ROW],
    /// The kinds of the lets around, by how far in they are.
    lets: [u32; MOST_DEPTH],
}

impl Frames {
    pub const fn new() -> Frames {
        let root = Frame {
            note: 0,
            own_and_stage: stage::ROOT,
        };
        Frames {
            frames: [root; ROW],
            lets: [0; MOST_DEPTH],
        }
    }
}

/// The kind of a node that is whole, or nothing: then a part is read next.
type Next = Option<u32>;

pub struct Pass<'a, 'i> {
    reader: Reader<'i>,
    tables: &'a Tables,
    cells: &'a Cells,
    literals: &'a mut Literals,
    rows: &'a mut Frames,
    /// How many nodes are around the one to be read; frame 0 lies below them.
    height: usize,
    /// How many lets the node to be read is inside of.
    lets: u32,
    /// How many unchecked blocks it is inside of.
    blocks: u32,
    /// How many nodes have been begun.
    nodes: u32,
    operations: &'a mut [u64; MOST_NODES],
    length: usize,
    /// How many of the operations are steps.
    steps: u32,
    first_inside: u32,
    allocates: bool,
    /// The first fault of typing.
    fault: Option<Refusal>,
}

/// Reads the whole expression into `script`. Gives where it ends and what
/// typing found.
#[inline(never)]
pub fn read<'a>(
    reader: Reader,
    tables: &'a Tables,
    cells: &'a Cells,
    literals: &'a mut Literals,
    rows: &'a mut Frames,
    script: &'a mut Script,
) -> Result<(usize, Option<Refusal>), Refusal> {
    let mut pass = Pass {
        reader,
        tables,
        cells,
        literals,
        rows,
        height: 0,
        lets: 0,
        blocks: 0,
        nodes: 0,
        operations: &mut script.operations,
        length: 0,
        steps: 0,
        first_inside: 0,
        allocates: false,
        fault: None,
    };
    pass.root()?;
    let (end, fault) = (pass.reader.at, pass.fault);
    let (length, steps) = (pass.length, pass.steps);
    let (first_inside, allocates) = (pass.first_inside, pass.allocates);
    script.length = length;
    script.steps = steps;
    script.first_inside = first_inside;
    script.allocates = allocates;
    Ok((end, fault))
}

impl Pass<'_, '_> {
    #[inline(always)]
    fn root(&mut self) -> Result<(), Refusal> {
        loop {
            let mut next = self.begin()?;
            while let Some(kind) = next {
                let frame = self.rows.frames[self.height & (ROW - 1)];
                if frame.stage() == stage::ROOT {
                    return Ok(());
                }
                next = self.finish(frame, kind);
            }
        }
    }

    /// Reads a node up to its first part.
    #[inline(always)]
    fn begin(&mut self) -> Result<Next, Refusal> {
        let place = self.reader.at;
        let code = self.reader.number()?;
        let own = self.nodes;
        if own >= MOST_NODES as u32 || self.height >= MOST_DEPTH {
            return refuse(LIMIT, place);
        }
        self.nodes += 1;
        match code {
            operation::LITERAL => self.literal(own),
            operation::VARIABLE => self.variable(),
            operation::LET => Ok(self.open(stage::LET_BOUND, own, 0)),
            operation::MALLOC => self.malloc(own),
            operation::UNWRAP => {
                self.blocks += 1;
                Ok(self.open(stage::BLOCK, own, self.steps))
            }
            operation::CAST => {
                let kind = self.word_type()?;
                Ok(self.open(stage::CAST, own, kind))
            }
            operation::READ => Ok(self.open(stage::READ, own, 0)),
            operation::ASSIGN => Ok(self.open(stage::ASSIGN_POINTER, own, 0)),
            operation::SUM if self.in_access() => Ok(self.open(stage::ACCESS_LEFT, own, 0)),
            operation::SUM => Ok(self.open(stage::SUM_LEFT, own, 0)),
            operation::FIELD => {
                let number = self.reader.number()?;
                Ok(self.open(stage::FIELD, own, number))
            }
            _ => refuse(UNKNOWN, place),
        }
    }

    /// "Directly under a read or as an assign's pointer part".
    #[inline(always)]
    fn in_access(&self) -> bool {
        let above = self.rows.frames[self.height & (ROW - 1)];
        matches!(above.stage(), stage::READ | stage::ASSIGN_POINTER)
    }

    #[inline(always)]
    fn open(&mut self, stage: u32, own: u32, note: u32) -> Next {
        self.height += 1;
        self.rows.frames[self.height & (ROW - 1)] = Frame::new(stage, own, note);
        None
    }

    /// The topmost frame gets the kind of the part that it waits for.
    #[inline(always)]
    fn finish(&mut self, frame: Frame, kind: u32) -> Next {
        let note = frame.note;
        match frame.stage() {
            stage::LET_BOUND => {
                let slot = self.lets;
                self.step(operation::LET, 0, slot);
                self.rows.lets[slot as usize & (MOST_DEPTH - 1)] = kind;
                self.lets += 1;
                self.wait(frame, stage::LET_BODY, kind)
            }
            stage::LET_BODY => {
                self.lets -= 1;
                self.close(kind)
            }
            stage::BLOCK => {
                self.blocks -= 1;
                // The first step inside an outermost block, if there is any,
                // came right behind those before it.
                if self.blocks == 0 && self.first_inside == 0 && self.steps > note {
                    self.first_inside = note + 1;
                }
                self.step(operation::UNWRAP, 0, 0);
                self.close(kind)
            }
            stage::CAST => {
                self.step(operation::CAST, note, 0);
                let fits = !codes::is_checked_pointer(note) || self.blocks > 0;
                self.judged(frame, note, fits)
            }
            stage::READ => {
                self.step(operation::READ, 0, 0);
                let element = self.element(kind);
                self.judged(frame, element, element != 0)
            }
            stage::ASSIGN_POINTER => self.wait(frame, stage::ASSIGN_VALUE, kind),
            stage::ASSIGN_VALUE => {
                self.step(operation::ASSIGN, 0, 0);
                let element = self.element(note);
                self.judged(frame, element, element == kind)
            }
            stage::SUM_LEFT => self.wait(frame, stage::SUM_RIGHT, kind),
            stage::SUM_RIGHT => {
                self.sum();
                self.judged(frame, INT, note == INT && kind == INT)
            }
            stage::ACCESS_LEFT => self.wait(frame, stage::ACCESS_RIGHT, kind),
            stage::ACCESS_RIGHT => {
                self.sum();
                // Both array tags have the upper two bits set; int has neither.
                let array = note & CHECKED_ARRAY == CHECKED_ARRAY;
                self.judged(frame, note, kind == INT && (array || note == INT))
            }
            _ => {
                self.step(operation::FIELD, 0, note);
                let address = self.tables.field_address(kind, note);
                self.judged(frame, address.unwrap_or(0), address.is_some())
            }
        }
    }

    /// The frame goes on waiting, now for its second part.
    #[inline(always)]
    fn wait(&mut self, frame: Frame, stage: u32, note: u32) -> Next {
        self.rows.frames[self.height & (ROW - 1)] = Frame::new(stage, frame.own(), note);
        None
    }

    #[inline(always)]
    fn close(&mut self, kind: u32) -> Next {
        self.height -= 1;
        Some(kind)
    }

    /// Closes a node whose rule fits or not. After a fault of typing the kinds
    /// mean nothing any more, and nobody asks for them.
    #[inline(always)]
    fn judged(&mut self, frame: Frame, kind: u32, fits: bool) -> Next {
        if !fits {
            self.fails(RULE, frame.own());
        }
        self.close(kind)
    }

    #[inline(always)]
    fn fails(&mut self, number: u32, own: u32) {
        if self.fault.is_none() {
            self.fault = Some(Refusal::new(number, own as usize));
        }
    }

    #[inline(always)]
    fn word_type(&mut self) -> Result<u32, Refusal> {
        let number = self.reader.known(self.tables.known)?;
        Ok(self.tables.kind(number as usize))
    }

    #[inline(always)]
    fn literal(&mut self, own: u32) -> Result<Next, Refusal> {
        let value = self.reader.value()?;
        let kind = self.word_type()?;
        self.push(pack(value, kind));
        if !codes::is_plain(value, kind)
            && self.fault.is_none()
            && !self.literals.reached(self.tables, self.cells, value, kind)
        {
            self.fails(LITERAL, own);
        }
        Ok(Some(kind))
    }

    #[inline(always)]
    fn variable(&mut self) -> Result<Next, Refusal> {
        let out = self.reader.known(self.lets)?;
        let slot = self.lets - 1 - out;
        self.push(pack(slot, operation::VARIABLE << codes::BITS));
        Ok(Some(self.rows.lets[slot as usize & (MOST_DEPTH - 1)]))
    }

    #[inline(always)]
    fn malloc(&mut self, own: u32) -> Result<Next, Refusal> {
        let kind = self
            .tables
            .read_target(&mut self.reader, self.tables.known)?;
        self.step(operation::MALLOC, kind, 0);
        self.allocates = true;
        if self.tables.size(kind) == 0 {
            self.fails(RULE, own);
        }
        Ok(Some(kind))
    }

    /// The kind that an access through a pointer gives; 0, no kind, if there is
    /// no such access here.
    #[inline(always)]
    fn element(&self, pointer: u32) -> u32 {
        let shape = codes::tag(pointer) & !UNCHECKED;
        let pointed = shape != 0 && shape != CHECKED_STRUCT;
        if pointed && (codes::is_checked_pointer(pointer) || self.blocks > 0) {
            self.tables.kind(codes::number(pointer))
        } else {
            0
        }
    }

    /// The row has at most an operation for each node, so it never overflows.
    #[inline(always)]
    fn push(&mut self, operation: u64) {
        self.operations[self.length & (MOST_NODES - 1)] = operation;
        self.length += 1;
    }

    #[inline(always)]
    fn step(&mut self, code: u32, kind: u32, number: u32) {
        self.push(pack(number, code << codes::BITS | kind));
        self.steps += 1;
    }

    /// A sum; where the operation before is a literal, that is its right side,
    /// and one operation does for both.
    #[inline(always)]
    fn sum(&mut self) {
        let right = self.operations[self.length.wrapping_sub(1) & (MOST_NODES - 1)];
        if code(right) == operation::LITERAL {
            self.length -= 1;
            self.step(operation::ADD, 0, right as u32);
        } else {
            self.step(operation::SUM, 0, 0);
        }
    }
}
