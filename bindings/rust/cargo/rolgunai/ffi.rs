//! The calls of the crate `rolgunai-sys`, which has the library.

pub use rolgunai_sys::*;
