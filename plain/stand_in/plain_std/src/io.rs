//! Input and output.
use crate::alloc::{AllocError, AllocFailed, Global};
#[cfg(feature = "program")]
pub use crate::runtime::{BufWriter, IsTerminal, writer};
pub use host::io::{Error, ErrorKind, Read, Result, Write};

impl From<AllocError> for Error {
    fn from(_refused: AllocError) -> Error {
        ErrorKind::OutOfMemory.into()
    }
}

impl<T> From<AllocFailed<T>> for Error {
    fn from(_refused: AllocFailed<T>) -> Error {
        ErrorKind::OutOfMemory.into()
    }
}

/// All that a reader has left, as a text.
pub fn read_to_string<R: Read>(_alloc: Global, mut reader: R) -> Result<heap::string::String> {
    let mut text = heap::string::String::new();
    reader.read_to_string(&mut text)?;
    Ok(text)
}
