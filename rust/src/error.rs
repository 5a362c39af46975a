//! What can go wrong with a file: its bytes are refused, or can't be had.

use crate::Refusal;
use std::fmt;
use std::io;

/// Why a file was not read, or not rewritten.
///
/// ```
/// use fungalcove::{Error, FileReader};
/// use std::io::Cursor;
///
/// match FileReader::new(Cursor::new(b"CX")) {
///     Err(Error::Refused(refusal)) => assert_eq!(refusal.number, 3),
///     _ => unreachable!("CX starts no file"),
/// }
/// ```
#[derive(Debug)]
pub enum Error {
    /// The bytes are there and were refused, or a name or number that was asked for does not exist.
    Refused(Refusal),
    /// The bytes could not be had or not be written, or there is no memory for them.
    Io(io::Error),
}

impl Error {
    /// The refusal, where the bytes were refused.
    ///
    /// ```
    /// use fungalcove::{example, FileReader};
    /// use std::io::Cursor;
    ///
    /// let mut file = FileReader::new(Cursor::new(&example::X)).unwrap();
    /// let error = file.read_var_i32("y").unwrap_err();
    /// assert_eq!(error.refusal().unwrap().words(), "no such variable");
    /// ```
    pub fn refusal(&self) -> Option<Refusal> {
        match self {
            Error::Refused(refusal) => Some(*refusal),
            Error::Io(_) => None,
        }
    }
}

impl fmt::Display for Error {
    fn fmt(&self, f: &mut fmt::Formatter<'_>) -> fmt::Result {
        match self {
            Error::Refused(refusal) => refusal.fmt(f),
            Error::Io(error) => error.fmt(f),
        }
    }
}

impl std::error::Error for Error {
    fn source(&self) -> Option<&(dyn std::error::Error + 'static)> {
        match self {
            Error::Refused(refusal) => Some(refusal),
            Error::Io(error) => Some(error),
        }
    }
}

impl From<Refusal> for Error {
    fn from(refusal: Refusal) -> Error {
        Error::Refused(refusal)
    }
}

impl From<io::Error> for Error {
    fn from(error: io::Error) -> Error {
        Error::Io(error)
    }
}
