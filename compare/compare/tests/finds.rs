//! A comparison that finds nothing wrong says something only if it would find
//! what is wrong: implementations with one slip each.

use compare::check::Checker;
use compare::implementation::{Implementation, Second, Tuned};
use generate::{case, Dice};

/// What is done to the heap, which was as `before`, and to out.
type Change = fn(heap: &mut [u64], before: &[u64], out: &mut [u64]);

/// `tuned` with one slip put on top.
struct Slip {
    tuned: Tuned,
    slip: Change,
}

impl Implementation for Slip {
    fn name(&self) -> &'static str {
        "slip"
    }

    fn answer(&mut self, image: &[u8], heap: &mut [u64], limit: u64, out: &mut [u64]) -> bool {
        let before = heap.to_vec();
        let answered = self.tuned.answer(image, heap, limit, out);
        if answered {
            (self.slip)(heap, &before, out);
        }
        answered
    }
}

/// How many images it takes until the slip shows, at most `most`.
fn found_after(most: u64, slip: Change) -> Option<u64> {
    let tuned = Tuned::new();
    let mut checker = Checker::with(vec![Box::new(Second), Box::new(Slip { tuned, slip })]);
    (0..most).find(|index| {
        let case = case(1, *index);
        let mut dice = Dice::new(*index);
        let mut checks = case.settings.iter();
        checks.any(|setting| checker.check(&mut dice, &case.image, *setting).is_err())
    })
}

#[test]
fn without_a_slip_nothing_is_found() {
    assert_eq!(found_after(2_000, |_, _, _| {}), None);
}

#[test]
fn slips_in_the_answer() {
    let found = |slip| found_after(2_000, slip).is_some();
    assert!(found(
        |_, _, out| out[2] ^= u64::from(out[0] == 0 && out[1] == 9)
    ));
    assert!(found(|_, _, out| out[4] += u64::from(out[1] == 2)));
    assert!(found(|_, _, out| out[5] = 0));
    assert!(found(|_, _, out| out[5] = out[5].min(out[4])));
    assert!(found(|_, _, out| if out[0] == 1 && out[1] == 5 {
        out[1] = 1
    }));
    assert!(found(|_, _, out| if out[0] == 1 && out[1] != 0 {
        out[3] = 0
    }));
    assert!(found(|_, _, out| if out.len() > 6 {
        out[6] = 0
    }));
}

#[test]
fn slips_in_the_heap() {
    let found = |slip| found_after(2_000, slip).is_some();
    // The words that the image doesn't set stay on acceptance.
    assert!(found(|heap, before, out| {
        if out[0] == 1 && heap.len() > 1 && heap[1] == 0 {
            heap[1] = before[1];
        }
    }));
    // A refusal touches the heap.
    assert!(found(|heap, _, out| {
        if out[0] == 0 && !heap.is_empty() {
            heap[0] = 0;
        }
    }));
    // An odd last number is touched.
    assert!(found(|heap, _, out| {
        if out[0] == 1 && heap.len() % 2 == 1 {
            heap[heap.len() - 1] = 0;
        }
    }));
    // W taken from the whole lent heap beyond 4,096 words.
    assert!(found(|heap, _, out| {
        if out[0] == 1 && heap.len() > 8_193 {
            heap[8_192..].fill(0);
        }
    }));
}
