//! The library compiled so that it tells its coverage: it guides, and is
//! compared like the others.

use compare::implementation::Implementation;

pub struct Covered;

impl Implementation for Covered {
    fn name(&self) -> &'static str {
        "library with coverage"
    }

    #[allow(unsafe_code)]
    fn answer(&mut self, image: &[u8], heap: &mut [u64], limit: u64, out: &mut [u64]) -> bool {
        // SAFETY: as in crate `codlinbell`, whose function this is under
        // another name: each pointer and length come from one slice.
        unsafe {
            codlinbell_answer_covered(
                image.as_ptr(),
                image.len(),
                heap.as_mut_ptr(),
                heap.len(),
                limit,
                out.as_mut_ptr(),
                out.len(),
            )
        }
    }
}

extern "C" {
    fn codlinbell_answer_covered(
        image: *const u8,
        image_len: usize,
        heap: *mut u64,
        heap_len: usize,
        limit: u64,
        out: *mut u64,
        out_len: usize,
    ) -> bool;
}
