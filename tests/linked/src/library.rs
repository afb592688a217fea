//! The static library, linked into this program or in a process of its own.

use crate::calls::Call;
use std::io::Result;

pub trait Library {
    /// Writes the library's answers to the calls, one after the other: the bytes of the struct, and after a tick's the grants.
    fn answer(&mut self, calls: &[Call], answers: &mut Vec<u8>) -> Result<()>;

    /// Ends it, after the last call.
    fn end(self: Box<Self>) -> Result<()>;
}

/// Opens the library: in the process that these words start, or linked.
pub fn open(served: Option<&[String]>) -> Result<Box<dyn Library>> {
    match served {
        Some(words) => Ok(Box::new(crate::served::Served::start(words)?)),
        None => linked(),
    }
}

#[cfg(target_arch = "x86_64")]
fn linked() -> Result<Box<dyn Library>> {
    Ok(Box::new(crate::linked::Linked))
}

#[cfg(not(target_arch = "x86_64"))]
fn linked() -> Result<Box<dyn Library>> {
    Err(std::io::Error::other(
        "the library is for x86-64: --served PROGRAM is wanted",
    ))
}
