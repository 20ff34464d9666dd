//! The runner's line.

use crate::kind::{Kind, Mode};
use crate::run::{End, Outcome};
use crate::Answer;

/// "end, value, type, `steps`, count, `unchecked`, first; or `refused`, number,
/// `at`, place"
pub fn line(answer: &Answer) -> String {
    match answer {
        Answer::Refused(refusal) => format!("refused {} at {}", refusal.number, refusal.place),
        Answer::Ran(outcome) => outcome_line(outcome),
    }
}

fn outcome_line(outcome: &Outcome) -> String {
    // "value and type (0 and int if no Value)"
    let (value, kind) = match outcome.end {
        End::Value { value, kind } => (value, kind),
        _ => (0, Kind::Int),
    };
    format!(
        "{} {} {} steps {} unchecked {}",
        end_word(&outcome.end),
        value,
        kind_word(kind),
        outcome.steps,
        outcome.first
    )
}

/// "Ends are in small letters."
fn end_word(end: &End) -> &'static str {
    match end {
        End::Value { .. } => "value",
        End::Null => "null",
        End::Bounds => "bounds",
        End::Room => "room",
        End::Stuck => "stuck",
        End::More => "more",
    }
}

/// "A type is `int` or one word like `c.word.0`, `u.struct.1`, `c.array.3.0`
/// (mode, kind, count, number)."
fn kind_word(kind: Kind) -> String {
    match kind {
        Kind::Int => "int".to_string(),
        Kind::Word { mode, of } => format!("{}.word.{}", mode_letter(mode), of),
        Kind::Struct { mode, of } => format!("{}.struct.{}", mode_letter(mode), of),
        Kind::Array { mode, count, of } => format!("{}.array.{}.{}", mode_letter(mode), count, of),
    }
}

fn mode_letter(mode: Mode) -> char {
    match mode {
        Mode::Checked => 'c',
        Mode::Unchecked => 'u',
    }
}
