//! Lent memory that ends where a page begins that may not be touched: who reads
//! or writes behind what is lent ends the program, and the fuzzer keeps the
//! image.

use compare::implementation::Implementation;
use std::ffi::{c_int, c_void};
use std::ptr::null_mut;

/// More than any image, heap or answer here needs.
const ROOM: usize = 1 << 18;
const PAGE: usize = 1 << 12;

// As Linux on x86-64 has them.
const NOTHING: c_int = 0;
const READ_AND_WRITE: c_int = 3;
const PRIVATE_AND_EMPTY: c_int = 0x22;

extern "C" {
    fn mmap(
        at: *mut c_void,
        size: usize,
        may: c_int,
        how: c_int,
        file: c_int,
        from: i64,
    ) -> *mut c_void;
    fn mprotect(at: *mut c_void, size: usize, may: c_int) -> c_int;
}

/// `ROOM` bytes before a fence.
struct Field(*mut u8);

#[allow(unsafe_code)]
impl Field {
    /// It is never given back: there are a few for the whole program.
    fn new() -> Field {
        // SAFETY: new pages, wherever the system wants them, and the last of
        // them is nobody else's.
        unsafe {
            let start = mmap(
                null_mut(),
                ROOM + PAGE,
                READ_AND_WRITE,
                PRIVATE_AND_EMPTY,
                -1,
                0,
            );
            assert!(start as isize != -1, "no memory");
            let fence = start.cast::<u8>().add(ROOM);
            assert!(mprotect(fence.cast(), PAGE, NOTHING) == 0, "no fence");
            Field(fence)
        }
    }

    /// A copy that ends at the fence.
    fn copy<T: Copy>(&mut self, items: &[T]) -> &mut [T] {
        let size = size_of_val(items);
        assert!(size <= ROOM && PAGE.is_multiple_of(align_of::<T>()));
        // SAFETY: so many bytes lie before the fence, and nobody else has them
        // while this is borrowed. The fence is a page's start and the size a
        // multiple of the alignment, so the items are aligned; they are all
        // written before the slice is made.
        unsafe {
            let start = self.0.sub(size).cast::<T>();
            start.copy_from_nonoverlapping(items.as_ptr(), items.len());
            std::slice::from_raw_parts_mut(start, items.len())
        }
    }
}

/// An implementation that is asked over such memory.
pub struct Fenced<I> {
    inner: I,
    image: Field,
    heap: Field,
    out: Field,
}

impl<I: Implementation> Fenced<I> {
    pub fn new(inner: I) -> Fenced<I> {
        Fenced {
            inner,
            image: Field::new(),
            heap: Field::new(),
            out: Field::new(),
        }
    }
}

impl<I: Implementation> Implementation for Fenced<I> {
    fn name(&self) -> &'static str {
        self.inner.name()
    }

    fn answer(&mut self, image: &[u8], heap: &mut [u64], limit: u64, out: &mut [u64]) -> bool {
        let lent_image = self.image.copy(image);
        let lent_heap = self.heap.copy(heap);
        let lent_out = self.out.copy(out);
        let answered = self.inner.answer(lent_image, lent_heap, limit, lent_out);
        assert!(
            lent_image == image,
            "{} changes the image",
            self.inner.name()
        );
        heap.copy_from_slice(lent_heap);
        out.copy_from_slice(lent_out);
        answered
    }
}
