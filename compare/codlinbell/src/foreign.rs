//! The one foreign call.

/// Loads, judges and runs an image, all in numbers, exactly as the C function
/// does: where `out` has fewer than six numbers the answer is false and nothing
/// changes; else the first six are
///
/// - `0, number, place, 0, 0, 0` for a refused image, or
/// - `1, end, value, kind's code, steps, first` for a run,
///
/// the others stay, and the answer is true. Use [`crate::answer_within`] unless
/// the numbers themselves are wanted.
#[allow(unsafe_code)]
pub fn answer_numbers(image: &[u8], heap: &mut [u64], limit: u64, out: &mut [u64]) -> bool {
    // SAFETY: each pointer and length come from one slice, so so many items can
    // be read (and, for the two borrowed mutably, written) behind the pointer
    // as long as the call lasts, and the slices don't overlap. An empty slice's
    // pointer is well aligned and not null. The function keeps no pointer, and
    // its contract is to touch nothing else.
    unsafe {
        codlinbell_answer(
            image.as_ptr(),
            image.len(),
            heap.as_mut_ptr(),
            heap.len(),
            limit,
            out.as_mut_ptr(),
            out.len(),
        )
    }
}

extern "C" {
    /// As include/codlinbell.h declares it; `usize` is C's `size_t`.
    fn codlinbell_answer(
        image: *const u8,
        image_len: usize,
        heap: *mut u64,
        heap_len: usize,
        limit: u64,
        out: *mut u64,
        out_len: usize,
    ) -> bool;
}
