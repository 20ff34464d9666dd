//! What the fuzzing target is made of: the check of one image, the memory that
//! is lent for it, and mutations that know how an image is written.
#![deny(unsafe_code)]

pub mod check;
pub mod fence;
pub mod model;
pub mod mutate;
mod place;

#[cfg(covered)]
mod covered;
#[cfg(feature = "slip")]
mod slip;

#[cfg(feature = "target")]
pub use target::checker;

#[cfg(feature = "target")]
mod target {
    use crate::fence::Fenced;
    use compare::check::Checker;
    use compare::implementation::{Library, Second, Tuned};

    /// Compares everything with `second`, the library once more if there is one
    /// that tells its coverage.
    pub fn checker() -> Checker {
        Checker::with(vec![
            Box::new(Second),
            Box::new(Tuned::new()),
            Box::new(Fenced::new(Library)),
            #[cfg(covered)]
            Box::new(Fenced::new(crate::covered::Covered)),
            #[cfg(feature = "slip")]
            Box::new(Fenced::new(crate::slip::Slip::named())),
        ])
    }
}
