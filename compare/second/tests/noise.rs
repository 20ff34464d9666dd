//! Random images: no panic, and what must hold of every answer.

mod common;
use common::*;
use second::{answer, line, stays_typed, Answer, End, Kind, Mode};

/// A generator of expressions of a wanted type, so that most are accepted.
struct Maker {
    dice: Dice,
    structs: Vec<Vec<u64>>,
    kinds: Vec<Kind>,
    lets: Vec<Kind>,
    operators: u64,
    nodes: u64,
}

fn entry(kind: Kind) -> Bytes {
    let mode = |mode| match mode {
        Mode::Checked => n(0),
        Mode::Unchecked => n(1),
    };
    match kind {
        Kind::Int => unreachable!(),
        Kind::Word { mode: m, of } => join(&[mode(m), to_word(of.into())]),
        Kind::Struct { mode: m, of } => join(&[mode(m), to_struct(of.into())]),
        Kind::Array { mode: m, count, of } => join(&[mode(m), to_array(count.into(), of.into())]),
    }
}

impl Maker {
    fn new(seed: u64) -> Maker {
        let mut dice = Dice(seed);
        let types = 1 + dice.below(9);
        let mut kinds = vec![INT];
        let structs = dice.below(3);
        while kinds.len() as u64 <= types {
            let of = dice.below(kinds.len() as u64) as u8;
            let mode = if dice.below(4) == 0 { U } else { C };
            let kind = match dice.below(3) {
                0 => word(mode, of),
                1 if structs > 0 => strukt(mode, dice.below(structs) as u8),
                _ => array(mode, dice.below(4) as u16, of),
            };
            if !kinds.contains(&kind) {
                kinds.push(kind);
            }
        }
        let structs = (0..structs)
            .map(|_| {
                (0..1 + dice.below(3))
                    .map(|_| dice.below(types + 1))
                    .collect()
            })
            .collect();
        Maker {
            dice,
            structs,
            kinds,
            lets: vec![],
            operators: 0,
            nodes: 0,
        }
    }

    fn number(&self, kind: Kind) -> Option<u64> {
        self.kinds.iter().position(|&k| k == kind).map(|p| p as u64)
    }

    fn cells(&mut self) -> Vec<(u64, u64, u64)> {
        let count = self.dice.below(10);
        let mut cells = Vec::new();
        for _ in 0..count {
            let gap = if self.dice.below(6) == 0 { 2 } else { 1 };
            let value = self.small();
            let kind = self.dice.below(self.kinds.len() as u64);
            cells.push((gap, value, kind));
        }
        cells
    }

    fn small(&mut self) -> u64 {
        match self.dice.below(12) {
            0..=3 => 0,
            4..=10 => self.dice.below(12),
            _ => 4_294_967_295 - self.dice.below(12),
        }
    }

    fn any_kind(&mut self) -> Kind {
        let index = self.dice.below(self.kinds.len() as u64);
        self.kinds[index as usize]
    }

    fn op(&mut self) {
        self.operators += 1;
        self.nodes += 1;
    }

    fn malloc_of(&mut self, kind: Kind) -> Option<Bytes> {
        let target = match kind {
            Kind::Word { mode: C, of } => to_word(of.into()),
            Kind::Struct { mode: C, of } => to_struct(of.into()),
            Kind::Array { mode: C, count, of } if count > 0 => to_array(count.into(), of.into()),
            _ => return None,
        };
        self.op();
        Some(malloc(target))
    }

    /// A pointer part for an access to words of this type.
    fn access(&mut self, to: Kind, mode: Mode, depth: u64) -> Bytes {
        let of = self.number(to).unwrap() as u8;
        let fits: Vec<Kind> = self
            .kinds
            .iter()
            .copied()
            .filter(|kind| match *kind {
                Kind::Word { mode: m, of: o } => o == of && (m == C || mode == U),
                Kind::Array { mode: m, of: o, .. } => o == of && (m == C || mode == U),
                _ => false,
            })
            .collect();
        let pointer = if fits.is_empty() || self.dice.below(6) == 0 {
            word(C, of)
        } else {
            fits[self.dice.below(fits.len() as u64) as usize]
        };
        if matches!(pointer, Kind::Array { .. }) && self.dice.below(2) == 0 {
            self.op();
            let left = self.expr(pointer, mode, depth);
            let right = self.expr(INT, mode, depth);
            return sum(left, right);
        }
        self.expr(pointer, mode, depth)
    }

    /// A field address of this type, if some struct has such a field.
    fn field_of(&mut self, want: Kind, mode: Mode, depth: u64) -> Option<Bytes> {
        let Kind::Word { mode: m, of } = want else {
            return None;
        };
        for index in 0..self.structs.len() {
            let place = self.structs[index].iter().position(|&f| f == u64::from(of));
            let whole = strukt(m, index as u8);
            if let Some(place) = place {
                if m == C || self.number(whole).is_some() {
                    self.op();
                    let part = self.expr(whole, mode, depth);
                    return Some(field(place as u64, part));
                }
            }
        }
        None
    }

    fn expr(&mut self, want: Kind, mode: Mode, depth: u64) -> Bytes {
        if self.dice.below(400) == 0 && depth > 1 {
            // Now and then something that need not fit.
            let other = self.any_kind();
            return self.expr(other, mode, depth - 1);
        }
        if depth == 0 {
            return self.leaf(want);
        }
        let inner = depth - 1;
        match self.dice.below(11) {
            0 => self.leaf(want),
            1 | 2 => {
                self.op();
                let kind = self.any_kind();
                let bound = self.expr(kind, mode, inner);
                self.lets.push(kind);
                let body = self.expr(want, mode, inner);
                self.lets.pop();
                let_in(bound, body)
            }
            3 => {
                self.op();
                unchecked(self.expr(want, U, inner))
            }
            4 => {
                let Some(number) = self.number(want) else {
                    return self.leaf(want);
                };
                if mode == C && entry_is_checked(want) {
                    return self.leaf(want);
                }
                self.op();
                let other = self.any_kind();
                cast(number, self.expr(other, mode, inner))
            }
            5 | 6 if self.number(want).is_some() => {
                self.op();
                read(self.access(want, mode, inner))
            }
            7 | 8 if self.number(want).is_some() => {
                self.op();
                let pointer = self.access(want, mode, inner);
                let value = self.expr(want, mode, inner);
                assign(pointer, value)
            }
            9 if want == INT => {
                self.op();
                let left = self.expr(INT, mode, inner);
                let right = self.expr(INT, mode, inner);
                sum(left, right)
            }
            9 | 10 => match self.field_of(want, mode, inner) {
                Some(bytes) => bytes,
                None => self.leaf(want),
            },
            _ => self.leaf(want),
        }
    }

    fn leaf(&mut self, want: Kind) -> Bytes {
        let uses: Vec<usize> = (0..self.lets.len())
            .filter(|&out| self.lets[self.lets.len() - 1 - out] == want)
            .collect();
        if !uses.is_empty() && self.dice.below(4) != 0 {
            self.nodes += 1;
            return var(uses[self.dice.below(uses.len() as u64) as usize] as u64);
        }
        if self.dice.below(3) != 0 || self.number(want).is_none() {
            if let Some(bytes) = self.malloc_of(want) {
                return bytes;
            }
        }
        self.nodes += 1;
        let number = self.number(want).unwrap_or(0);
        let value = match want {
            Kind::Int => self.dice.below(4),
            // Checked pointers: mostly null, so that most images are accepted.
            _ if self.dice.below(3) == 0 => self.small(),
            _ => 0,
        };
        lit(value, number)
    }

    fn image(&mut self) -> Bytes {
        let cells = self.cells();
        let want = self.any_kind();
        let depth = 2 + self.dice.below(5);
        let expr = self.expr(want, C, depth);
        let entries: Vec<Bytes> = self.kinds[1..].iter().map(|&kind| entry(kind)).collect();
        image(&self.structs, &entries, &cells, expr)
    }
}

fn entry_is_checked(kind: Kind) -> bool {
    match kind {
        Kind::Int => false,
        Kind::Word { mode, .. } | Kind::Struct { mode, .. } | Kind::Array { mode, .. } => mode == C,
    }
}

/// What holds of every accepted image with this many operators.
fn holds(image: &[u8], words: usize, operators: u64) -> Option<End> {
    let (full, heap) = answer(image, words, 100_000);
    assert_eq!(stays_typed(image, words, 100_000), Ok(()), "{image:02X?}");
    let Answer::Ran(outcome) = full else {
        assert_eq!(heap, None);
        return None;
    };
    assert_eq!(heap.as_ref().unwrap().len(), words);
    assert!(outcome.steps <= operators);
    assert!(outcome.first <= outcome.steps + 1);
    if let End::Value { .. } = outcome.end {
        assert_eq!(outcome.steps, operators);
    }
    assert_ne!(outcome.end, End::More);
    // Every smaller limit ends with More after exactly so many steps.
    for limit in 0..outcome.steps {
        let (part, _) = answer(image, words, limit);
        let Answer::Ran(part) = part else {
            panic!("refused with a smaller limit")
        };
        assert_eq!((part.end, part.steps), (End::More, limit));
        let first = if outcome.first > limit {
            0
        } else {
            outcome.first
        };
        assert_eq!(part.first, first);
        assert_eq!(stays_typed(image, words, limit), Ok(()));
    }
    assert_eq!(answer(image, words, outcome.steps), (full, heap.clone()));
    assert_eq!(answer(image, words, u64::MAX), (full, heap));
    Some(outcome.end)
}

#[test]
fn made_images() {
    let mut ends = std::collections::BTreeMap::new();
    for seed in 1..=20_000u64 {
        let mut maker = Maker::new(seed.wrapping_mul(0x9E37_79B9_7F4A_7C15));
        let image = maker.image();
        if maker.nodes > 2_048 {
            continue;
        }
        let words = [16, 12, 20, 64][(seed % 4) as usize];
        let end = holds(&image, words, maker.operators);
        let name = match end {
            None => "refused",
            Some(End::Value { .. }) => "value",
            Some(End::Null) => "null",
            Some(End::Bounds) => "bounds",
            Some(End::Room) => "room",
            Some(End::Stuck) => "stuck",
            Some(End::More) => "more",
        };
        *ends.entry(name).or_insert(0) += 1;
    }
    for end in ["refused", "value", "null", "bounds", "room", "stuck"] {
        assert!(ends.get(end).copied().unwrap_or(0) >= 40, "{ends:?}");
    }
    assert!(ends["value"] > 2_000, "{ends:?}");
}

#[test]
fn spoilt_images() {
    let mut dice = Dice(0xBAD_5EED);
    for seed in 1..=4_000u64 {
        let mut maker = Maker::new(seed.wrapping_mul(0xD134_2543_DE82_EF95));
        let mut image = maker.image();
        for _ in 0..8 {
            let place = dice.below(image.len() as u64) as usize;
            match dice.below(4) {
                0 => image[place] = dice.roll() as u8,
                1 => image[place] = dice.below(12) as u8,
                2 => {
                    image.insert(place, dice.below(12) as u8);
                }
                _ => {
                    image.remove(place);
                }
            }
            if image.is_empty() {
                break;
            }
            let words = dice.below(20) as usize;
            let (answer, _) = answer(&image, words, 100_000);
            let refused_place = match answer {
                Answer::Refused(refusal) => refusal.place,
                Answer::Ran(_) => 0,
            };
            assert!(refused_place <= image.len());
            assert!(!line(&answer).is_empty());
            assert_eq!(stays_typed(&image, words, 100_000), Ok(()), "{image:02X?}");
        }
    }
}

#[test]
fn plain_noise() {
    let mut dice = Dice(0x0DDB_A115);
    for _ in 0..60_000 {
        let length = dice.below(40) as usize;
        let mut image: Bytes = (0..length).map(|_| dice.roll() as u8).collect();
        if dice.below(2) == 0 {
            for byte in &mut image {
                *byte %= 11;
            }
        }
        if length > 3 && dice.below(4) != 0 {
            image[0] = 1;
            image[1] %= 2;
            image[2] %= 3;
        }
        let words = dice.below(20) as usize;
        let limit = dice.below(30);
        let (answer, heap) = answer(&image, words, limit);
        assert_eq!(heap.is_some(), matches!(answer, Answer::Ran(_)));
        assert_eq!(stays_typed(&image, words, limit), Ok(()), "{image:02X?}");
    }
}
