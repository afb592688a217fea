//! The static library and the second program, called with the same inputs.
//!
//! The inputs are made of the second program's plain types, and of bytes. The boundary's functions are
//! named in `linked` and `serve.c`, nowhere else.

pub mod arguments;
pub mod boundary;
pub mod calls;
pub mod compare;
pub mod desk;
pub mod edges;
pub mod fields;
pub mod kinds;
pub mod library;
#[cfg(target_arch = "x86_64")]
pub mod linked;
pub mod random;
pub mod reports;
pub mod served;
pub mod states;
pub mod tables;
pub mod tally;
