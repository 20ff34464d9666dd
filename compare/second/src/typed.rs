//! Demand 3 looked at on one run: checked code keeps its types.
//!
//! Its own walk over the final heap's list, not the literal check's.

use crate::heap::MOST_WORDS;
use crate::image::read_image;
use crate::judge::type_of;
use crate::kind::{Kind, Mode, Target, Value};
use crate::run::{run, End, Outcome};
use crate::tables::Tables;

/// If the image is accepted with a type and the run has no unchecked step, then
/// the run isn't Stuck, a Value has exactly the type, and each checked pointer
/// other than 0 that is the value, or is reached from it through checked
/// pointers in the final heap, covers defined words of exactly the types it
/// claims.
pub fn stays_typed(image: &[u8], words: usize, limit: u64) -> Result<(), String> {
    let Ok(mut program) = read_image(image, words.min(MOST_WORDS)) else {
        return Ok(());
    };
    let Ok(claimed) = type_of(&program) else {
        return Ok(());
    };
    let outcome = run(&mut program, limit);
    let heap = program.heap.list();
    end_holds(claimed, outcome, &program.tables, &heap)
}

/// The same of a run's outcome and final heap, for the type judged before it.
pub fn end_holds(
    claimed: Kind,
    outcome: Outcome,
    tables: &Tables,
    heap: &[Option<Value>],
) -> Result<(), String> {
    if outcome.first != 0 {
        return Ok(());
    }
    match outcome.end {
        End::Stuck => Err(format!("stuck after {} checked steps", outcome.steps)),
        End::Value { kind, .. } if kind != claimed => {
            Err(format!("value of type {kind:?}, judged {claimed:?}"))
        }
        End::Value {
            value: number,
            kind,
        } => reached_hold(Value { number, kind }, tables, heap),
        End::Null | End::Bounds | End::Room | End::More => Ok(()),
    }
}

/// Looks at the value and then at each word reached, noting the addresses
/// already on the list (a word stands at one address, so nothing is lost).
pub fn reached_hold(value: Value, tables: &Tables, heap: &[Option<Value>]) -> Result<(), String> {
    let mut noted = vec![false; heap.len()];
    let mut list = vec![value];
    let mut at = 0;
    while at < list.len() {
        let pointer = list[at];
        at += 1;
        for address in covered_addresses(pointer, tables, heap)? {
            let index = address - 1;
            if let (Some(word), false) = (heap[index], noted[index]) {
                noted[index] = true;
                list.push(word);
            }
        }
    }
    Ok(())
}

/// The addresses that a checked pointer other than 0 covers (none for other
/// values), or what is wrong there.
fn covered_addresses(
    pointer: Value,
    tables: &Tables,
    heap: &[Option<Value>],
) -> Result<Vec<usize>, String> {
    let mut addresses = Vec::new();
    if pointer.number == 0 {
        return Ok(addresses);
    }
    for (kind, offset) in claimed_words(pointer.kind, tables).into_iter().zip(0u64..) {
        let address = pointer.number + offset;
        let index = usize::try_from(address - 1).unwrap_or(usize::MAX);
        match heap.get(index) {
            Some(Some(word)) if word.kind == kind => addresses.push(index + 1),
            other => {
                return Err(format!(
                    "{pointer:?} claims {kind:?} at {address}, which is {other:?}"
                ))
            }
        }
    }
    Ok(addresses)
}

/// The types that a checked pointer claims for the words from its value on.
fn claimed_words(kind: Kind, tables: &Tables) -> Vec<Kind> {
    match kind.split() {
        Some((Mode::Checked, Target::Word { of })) => vec![tables.kind(of)],
        Some((Mode::Checked, Target::Array { count, of })) => {
            vec![tables.kind(of); usize::from(count)]
        }
        Some((Mode::Checked, Target::Struct { of })) => {
            let mut kinds = Vec::new();
            let mut field = 0;
            while let Some(number) = tables.field(of, field) {
                kinds.push(tables.kind(number));
                field += 1;
            }
            kinds
        }
        _ => Vec::new(),
    }
}
