//! Our code, through the archive of crate `capi`, against the Rust. sides: one question to both. cases: what they are asked. compare: the
//! count, and differences made small. exhaustive: every short code.
//!
//! A further call is one more function in `sides` for each side and one more in `compare`.

pub mod cases;
pub mod compare;
pub mod exhaustive;
pub mod sides;
