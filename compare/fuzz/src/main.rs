//! The functions that libFuzzer calls: the check of one input, a mutation of
//! one, and one made of two. libFuzzer itself brings `main`.
#![no_main]
#![allow(unsafe_code)]

use compare::check::Checker;
use fuzz::check::check;
use fuzz::mutate::{changed, crossed, Change};
use generate::Dice;
use std::cell::RefCell;
use std::slice::{from_raw_parts, from_raw_parts_mut};

thread_local! {
    static CHECKER: RefCell<Checker> = RefCell::new(fuzz::checker());
}

extern "C" {
    /// libFuzzer's own mutations of the bytes at `data`; gives how many there
    /// are then.
    fn LLVMFuzzerMutate(data: *mut u8, size: usize, most: usize) -> usize;
}

/// A difference is printed with its image and ends the program, and so does a
/// panic: libFuzzer then writes the image into a file.
///
/// # Safety
///
/// There are `size` bytes at `data`.
#[no_mangle]
pub unsafe extern "C" fn LLVMFuzzerTestOneInput(data: *const u8, size: usize) -> i32 {
    // SAFETY: as promised above; `bytes` sees to an empty image.
    let image = unsafe { bytes(data, size) };
    CHECKER.with_borrow_mut(|checker| {
        if let Err(difference) = check(checker, image) {
            eprintln!("{difference}");
            std::process::abort();
        }
    });
    0
}

/// # Safety
///
/// There are `size` bytes at `data`, and room for `most`.
#[no_mangle]
pub unsafe extern "C" fn LLVMFuzzerCustomMutator(
    data: *mut u8,
    size: usize,
    most: usize,
    seed: u32,
) -> usize {
    let mut dice = Dice::new(u64::from(seed));
    // SAFETY: as promised above.
    let change = changed(&mut dice, unsafe { bytes(data, size) });
    match change {
        // SAFETY: as promised above.
        Change::Image(image) if image.len() <= most => unsafe { put(data, &image) },
        _ => unsafe { LLVMFuzzerMutate(data, size, most) },
    }
}

/// # Safety
///
/// There are `size` bytes at `data`, `other_size` at `other`, and room for
/// `most` at `out`, which overlaps neither.
#[no_mangle]
pub unsafe extern "C" fn LLVMFuzzerCustomCrossOver(
    data: *const u8,
    size: usize,
    other: *const u8,
    other_size: usize,
    out: *mut u8,
    most: usize,
    seed: u32,
) -> usize {
    let mut dice = Dice::new(u64::from(seed));
    // SAFETY: as promised above.
    let (one, two) = unsafe { (bytes(data, size), bytes(other, other_size)) };
    let image = crossed(&mut dice, one, two);
    let length = image.len().min(most);
    // SAFETY: there is room for so many.
    unsafe { put(out, &image[..length]) }
}

/// The bytes at a pointer, which may be null if there are none.
///
/// # Safety
///
/// There are so many, and nothing writes them while they are looked at.
unsafe fn bytes<'a>(data: *const u8, size: usize) -> &'a [u8] {
    if size == 0 {
        return &[];
    }
    // SAFETY: as promised above.
    unsafe { from_raw_parts(data, size) }
}

/// Writes an image and gives its length.
///
/// # Safety
///
/// There is room for it.
unsafe fn put(out: *mut u8, image: &[u8]) -> usize {
    if !image.is_empty() {
        // SAFETY: as promised above.
        unsafe { from_raw_parts_mut(out, image.len()) }.copy_from_slice(image);
    }
    image.len()
}
