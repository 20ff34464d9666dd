//! One image with one setting, through every implementation.

use crate::hex::hex;
use crate::implementation::{all, Implementation, Tuned};
use generate::{before, outline, Dice, Limit, Setting};
use std::fmt;

pub const DEFAULT_LIMIT: u64 = 100_000;

/// What isn't as it should be, with all that is needed to see it again.
#[derive(Clone, Debug)]
pub struct Difference {
    pub what: String,
    pub image: Vec<u8>,
    pub length: usize,
    pub limit: u64,
}

impl fmt::Display for Difference {
    fn fmt(&self, to: &mut fmt::Formatter) -> fmt::Result {
        let words = (self.length / 2).min(4_096);
        writeln!(to, "DIFFERENCE: {}", self.what)?;
        writeln!(
            to,
            "image ({} bytes): {}",
            self.image.len(),
            hex(&self.image)
        )?;
        write!(
            to,
            "W {words} (heap of {} numbers), limit {}",
            self.length, self.limit
        )
    }
}

/// An answer with everything that it may touch.
#[derive(Clone, Debug, Default, PartialEq, Eq)]
struct Trace {
    answered: bool,
    out: Vec<u64>,
    heap: Vec<u64>,
}

pub struct Checker {
    implementations: Vec<Box<dyn Implementation>>,
    /// Only to find out how many steps a run takes.
    scout: Tuned,
    scout_heap: Vec<u64>,
    before: Vec<u64>,
    wanted: Trace,
    got: Trace,
}

impl Default for Checker {
    fn default() -> Checker {
        Checker::new()
    }
}

impl Checker {
    pub fn new() -> Checker {
        Checker::with(all())
    }

    /// For tests: a list of one's own, the first being the one to be held to.
    pub fn with(implementations: Vec<Box<dyn Implementation>>) -> Checker {
        Checker {
            implementations,
            scout: Tuned::new(),
            scout_heap: Vec::new(),
            before: Vec::new(),
            wanted: Trace::default(),
            got: Trace::default(),
        }
    }

    /// The six numbers on which all agree, or what is wrong. `dice` give what
    /// the lent memory holds before.
    pub fn check(
        &mut self,
        dice: &mut Dice,
        image: &[u8],
        setting: Setting,
    ) -> Result<[u64; 6], Box<Difference>> {
        let limit = self.limit(image, setting);
        before(dice, setting, &mut self.before);
        let out = some_out(dice);
        self.compare(image, limit, &out)
            .and_then(|numbers| {
                lawful(image, setting.length, limit, &numbers)?;
                Ok(numbers)
            })
            .map_err(|what| {
                Box::new(Difference {
                    what,
                    image: image.to_vec(),
                    length: setting.length,
                    limit,
                })
            })
    }

    /// The limit in numbers. How many steps are enough the scout says; if it is
    /// wrong, the limit is another, and nothing else.
    fn limit(&mut self, image: &[u8], setting: Setting) -> u64 {
        match setting.limit {
            Limit::Default => DEFAULT_LIMIT,
            Limit::Exactly(limit) => limit,
            Limit::Most => u64::MAX,
            Limit::Enough => self.steps(image, setting),
            Limit::OneLess => self.steps(image, setting).saturating_sub(1),
            Limit::OneMore => self.steps(image, setting) + 1,
        }
    }

    fn steps(&mut self, image: &[u8], setting: Setting) -> u64 {
        self.scout_heap.resize(setting.length, 0);
        let mut out = [0; 6];
        let heap = &mut self.scout_heap;
        self.scout.answer(image, heap, DEFAULT_LIMIT, &mut out);
        out[4]
    }

    fn compare(&mut self, image: &[u8], limit: u64, out: &[u64]) -> Result<[u64; 6], String> {
        let mut held_to = "";
        for implementation in &mut self.implementations {
            let trace = if held_to.is_empty() {
                &mut self.wanted
            } else {
                &mut self.got
            };
            ask(
                implementation.as_mut(),
                image,
                limit,
                &self.before,
                out,
                trace,
            );
            untouched(implementation.name(), &self.before, out, trace)?;
            short_out(implementation.as_mut(), image, limit, &mut self.scout_heap)?;
            if held_to.is_empty() {
                held_to = implementation.name();
            } else if self.got != self.wanted {
                let name = implementation.name();
                return Err(told(held_to, &self.wanted, name, &self.got));
            }
        }
        match self.wanted.out.first_chunk::<6>() {
            Some(numbers) => Ok(*numbers),
            None => Err("no six numbers".to_string()),
        }
    }
}

/// Six to nine numbers that mean nothing.
fn some_out(dice: &mut Dice) -> Vec<u64> {
    (0..dice.range(6, 9)).map(|_| dice.roll()).collect()
}

fn ask(
    implementation: &mut dyn Implementation,
    image: &[u8],
    limit: u64,
    before: &[u64],
    out: &[u64],
    trace: &mut Trace,
) {
    trace.heap.clear();
    trace.heap.extend_from_slice(before);
    trace.out.clear();
    trace.out.extend_from_slice(out);
    trace.answered = implementation.answer(image, &mut trace.heap, limit, &mut trace.out);
}

/// What must not have changed: out behind the six numbers, the heap behind W,
/// and on a refusal the whole heap.
fn untouched(name: &str, before: &[u64], out: &[u64], trace: &Trace) -> Result<(), String> {
    if !trace.answered {
        return Err(format!("{name} answers false with {} numbers", out.len()));
    }
    if trace.out[6..] != out[6..] {
        return Err(format!("{name} changes out behind its six numbers"));
    }
    let words = (before.len() / 2).min(4_096);
    let kept = if trace.out[0] == 0 { 0 } else { 2 * words };
    if trace.heap[kept..] != before[kept..] {
        return Err(format!("{name} changes the heap where it must not"));
    }
    Ok(())
}

/// With fewer than six numbers in out: false, and nothing changed.
fn short_out(
    implementation: &mut dyn Implementation,
    image: &[u8],
    limit: u64,
    heap: &mut Vec<u64>,
) -> Result<(), String> {
    heap.clear();
    heap.resize(4, 0xABCD);
    let mut out = [77; 5];
    let length = image.len() % 6;
    let answered = implementation.answer(image, heap, limit, &mut out[..length]);
    if answered || out != [77; 5] || heap[..] != [0xABCD; 4] {
        let name = implementation.name();
        return Err(format!("{name} doesn't leave a short out alone"));
    }
    Ok(())
}

fn told(name: &str, wanted: &Trace, other: &str, got: &Trace) -> String {
    if wanted.out != got.out {
        let (wanted, got) = (&wanted.out[..6], &got.out[..6]);
        return format!("{name} answers {wanted:?}, {other} answers {got:?}");
    }
    let mut pairs = wanted.heap.iter().zip(&got.heap);
    let place = pairs.position(|(one, two)| one != two).unwrap_or(0);
    let word = place / 2 + 1;
    let (wanted, got) = (wanted.heap.get(place), got.heap.get(place));
    format!("heap number {place} (word {word}): {name} has {wanted:?}, {other} has {got:?}")
}

/// What 01 says of every answer: steps are no more than the limit and the
/// operators, exactly these at a Value; and demand 3, where nothing unchecked
/// happened.
fn lawful(image: &[u8], length: usize, limit: u64, numbers: &[u64; 6]) -> Result<(), String> {
    let [ran, end, _, _, steps, first] = *numbers;
    if ran == 0 {
        return Ok(());
    }
    let operators = outline(image).operators();
    if steps > limit || steps > operators || (end == 0 && steps != operators) {
        return Err(format!(
            "{steps} steps, {operators} operators, limit {limit}"
        ));
    }
    if first == 0 {
        second::stays_typed(image, length / 2, limit).map_err(|why| format!("demand 3: {why}"))?;
    }
    Ok(())
}
