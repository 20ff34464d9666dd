//! Whether a literal is well typed over the heap.
//!
//! The rule of 01: "It is well typed if that is int, an unchecked pointer, a
//! checked pointer to an array of 0, or the value is 0; or if it is in the
//! scope; or if it is a checked pointer and each word that its target covers is
//! defined, has exactly the target's word type there, and is itself well typed
//! with this literal added to the scope. The scope starts empty."
//!
//! Here a worklist is used. Call a literal plain if one of the first four
//! cases fits, and sound if it is plain or each word that its target covers is
//! defined and has exactly the type claimed for it. Say that a literal that is
//! not plain leads to the words its target covers. Claim: a literal l is well
//! typed under the empty scope exactly if every literal that can be reached
//! from l (l itself included) is sound.
//!
//! If all reachable ones are sound, a derivation exists: apply the third case
//! to each literal that is neither plain nor in the scope. Along a branch the
//! scope grows by a new literal each time, and there are finitely many (l and
//! the heap's words), so every branch ends.
//!
//! If a derivation exists, take any reachable literal x and a path from l to x
//! without repetition (cut out loops). Follow the derivation along the path. At
//! a literal on the path the scope holds exactly the ones before it, so it isn't
//! in the scope; if it isn't plain, the third case was used, so it is sound, and
//! the derivation contains one for the next literal of the path. So x is sound.
//!
//! For several literals over one heap a common set of looked-at literals is
//! kept: the first unsound one ends the typing, so whatever stands in the set
//! when a next literal is begun was sound, with all that it reaches.

use crate::heap::Heap;
use crate::kind::{Kind, Mode, Target, Value};
use crate::tables::Tables;
use std::collections::BTreeSet;

/// "int, an unchecked pointer, a checked pointer to an array of 0, or the value
/// is 0": nothing if one of them fits, else the target to be looked at.
fn to_look_at(literal: Value) -> Option<Target> {
    match literal.kind {
        Kind::Array { count: 0, .. } => None,
        _ if literal.number == 0 => None,
        kind => match kind.split() {
            Some((Mode::Checked, target)) => Some(target),
            _ => None,
        },
    }
}

/// The words that a literal leads to, if they all are defined and have exactly
/// the types that its target gives.
fn covered(literal: Value, target: Target, tables: &Tables, heap: &Heap) -> Option<Vec<Value>> {
    let words = heap.run(literal.number, tables.size(target))?;
    let kinds = tables.words(target);
    let exact = words
        .iter()
        .zip(kinds)
        .all(|(word, kind)| word.kind == kind);
    if exact {
        Some(words)
    } else {
        None
    }
}

/// Whether a literal is well typed. `seen` starts empty for a heap and is kept
/// from literal to literal as long as the answer is yes.
pub fn well_typed(
    literal: Value,
    tables: &Tables,
    heap: &Heap,
    seen: &mut BTreeSet<Value>,
) -> bool {
    let mut work = Vec::new();
    if seen.insert(literal) {
        work.push(literal);
    }
    while let Some(next) = work.pop() {
        let Some(target) = to_look_at(next) else {
            continue;
        };
        let Some(words) = covered(next, target, tables, heap) else {
            return false;
        };
        for word in words {
            if to_look_at(word).is_some() && seen.insert(word) {
                work.push(word);
            }
        }
    }
    true
}
