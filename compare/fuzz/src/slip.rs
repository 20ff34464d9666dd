//! An implementation with a slip, to see that the target finds what is wrong.
//! Each slip shows in few images only: something long has to come together with
//! something rare.

use compare::implementation::{Implementation, Library};

/// The variable that says which slip: 1 to 4.
const WHICH: &str = "SLIP";

/// What is done to the heap and to the six numbers.
type Change = fn(heap: &mut [u64], out: &mut [u64]);

/// The library with a slip put on top.
pub struct Slip(Change);

impl Slip {
    pub fn named() -> Slip {
        match std::env::var(WHICH).as_deref() {
            Ok("1") => Slip(late_refusal),
            Ok("2") => Slip(array_value),
            Ok("3") => Slip(stuck_heap),
            Ok("4") => Slip(read_behind),
            other => panic!("{WHICH} is {other:?}, not 1 to 4"),
        }
    }
}

impl Implementation for Slip {
    fn name(&self) -> &'static str {
        "slip"
    }

    fn answer(&mut self, image: &[u8], heap: &mut [u64], limit: u64, out: &mut [u64]) -> bool {
        let answered = Library.answer(image, heap, limit, out);
        if answered {
            self.0(heap, out);
        }
        answered
    }
}

/// The place of a bad literal is one too far, from node 100 on.
fn late_refusal(_: &mut [u64], out: &mut [u64]) {
    if out[0] == 0 && out[1] == 10 && out[2] >= 100 {
        out[2] += 1;
    }
}

/// A checked array of five elements is off by one, after ten steps or more.
fn array_value(_: &mut [u64], out: &mut [u64]) {
    let (tag, count) = (out[3] % 8, out[3] / 2_048 % 65_536);
    if out[0] == 1 && out[1] == 0 && tag == 6 && count == 5 && out[4] >= 10 {
        out[2] += 1;
    }
}

/// A run that is stuck after thirty steps or more changes the second word.
fn stuck_heap(heap: &mut [u64], out: &mut [u64]) {
    if out[0] == 1 && out[1] == 4 && out[4] >= 30 && heap.len() >= 4 && heap[3] != 0 {
        heap[2] ^= 1;
    }
}

/// A run without room after forty steps or more looks at the number behind the
/// lent heap, and nothing else comes of it.
#[allow(unsafe_code)]
fn read_behind(heap: &mut [u64], out: &mut [u64]) {
    if out[0] == 1 && out[1] == 3 && out[4] >= 40 {
        // SAFETY: none; this is the slip.
        unsafe { heap.as_ptr().add(heap.len()).read_volatile() };
    }
}
