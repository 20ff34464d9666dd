//! The same answers and the same heap as `second`, on generated images. The
//! rows are used again for each image, so leftovers would show.

use generate::{before, case, Dice, Limit};
use second::{Answer, End, Kind, Mode};
use tuned::Tuned;

fn code(kind: Kind) -> u64 {
    let mode = |mode| u64::from(mode == Mode::Unchecked);
    match kind {
        Kind::Int => 1,
        Kind::Word { mode: m, of } => 2 + mode(m) + 8 * u64::from(of),
        Kind::Struct { mode: m, of } => 4 + mode(m) + 8 * u64::from(of),
        Kind::Array { mode: m, count, of } => {
            6 + mode(m) + 8 * u64::from(of) + 2_048 * u64::from(count)
        }
    }
}

fn numbers(answer: Answer) -> [u64; 6] {
    let run = match answer {
        Answer::Refused(refusal) => {
            return [0, refusal.number.into(), refusal.place as u64, 0, 0, 0]
        }
        Answer::Ran(run) => run,
    };
    let (end, value, kind) = match run.end {
        End::Value { value, kind } => (0, value, kind),
        End::Null => (1, 0, Kind::Int),
        End::Bounds => (2, 0, Kind::Int),
        End::Room => (3, 0, Kind::Int),
        End::Stuck => (4, 0, Kind::Int),
        End::More => (5, 0, Kind::Int),
    };
    [1, end, value, code(kind), run.steps, run.first]
}

fn same(tuned: &mut Tuned, image: &[u8], heap: &[u64], limit: u64) {
    let (answer, words) = second::answer(image, heap.len() / 2, limit);
    let mut wanted = heap.to_vec();
    for (pair, word) in wanted.chunks_exact_mut(2).zip(words.into_iter().flatten()) {
        let (value, kind) = word.map_or((0, 0), |(value, kind)| (value, code(kind)));
        pair.copy_from_slice(&[value, kind]);
    }
    let mut got = heap.to_vec();
    let length = heap.len();
    let tuned = tuned.answer(image, &mut got, limit).numbers();
    assert_eq!(tuned, numbers(answer), "{image:02X?} {length} {limit}");
    assert_eq!(got, wanted, "{image:02X?} {length} {limit}");
}

#[test]
fn generated_images() {
    let mut tuned = Tuned::new();
    let mut heap = Vec::new();
    for index in 0..6_000 {
        let case = case(0x7E57, index);
        let mut dice = Dice::new(index);
        for setting in case.settings {
            before(&mut dice, setting, &mut heap);
            let limit = match setting.limit {
                Limit::Exactly(limit) => limit,
                Limit::Most => u64::MAX,
                _ => 100_000,
            };
            same(&mut tuned, &case.image, &heap, limit);
        }
    }
}

#[test]
fn every_limit_of_a_run() {
    let mut tuned = Tuned::new();
    for index in 0..300 {
        let case = case(0x11317, index);
        for limit in 0..40 {
            same(&mut tuned, &case.image, &[5; 81], limit);
        }
    }
}
