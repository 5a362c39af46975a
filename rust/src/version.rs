//! The two versions of the format, and which of them a reader admits.

use std::fmt;

/// A version of the NetCDF-3 format.
///
/// ```
/// use fungalcove::Version;
///
/// assert_eq!(Version::Offset64.number(), 2);
/// assert_eq!(Version::Classic.to_string(), "classic");
/// ```
#[derive(Debug, Clone, Copy, PartialEq, Eq, Hash)]
pub enum Version {
    /// Version 1: places of variables are numbers of 4 bytes.
    Classic,
    /// Version 2: places of variables are numbers of 8 bytes.
    Offset64,
}

impl Version {
    /// The version's byte in the file: 1 or 2.
    pub fn number(self) -> u8 {
        match self {
            Version::Classic => 1,
            Version::Offset64 => 2,
        }
    }

    /// The header reader accepts no other numbers.
    pub(crate) fn of_word(word: u64) -> Version {
        if word == 2 {
            Version::Offset64
        } else {
            Version::Classic
        }
    }
}

impl fmt::Display for Version {
    fn fmt(&self, f: &mut fmt::Formatter<'_>) -> fmt::Result {
        f.write_str(match self {
            Version::Classic => "classic",
            Version::Offset64 => "64-bit offset",
        })
    }
}

/// The versions that a reader admits; any other is refused with the number 4.
///
/// ```
/// use fungalcove::{example, Header, Versions};
///
/// let file = &example::X;
/// assert!(Header::read(file, 92, Versions::CLASSIC).is_ok());
/// assert_eq!(Header::read(file, 92, Versions::OFFSET64).unwrap_err().number, 4);
/// ```
#[derive(Debug, Clone, Copy, PartialEq, Eq, Hash)]
pub struct Versions(u8);

impl Versions {
    /// Version 1 alone.
    pub const CLASSIC: Versions = Versions(1);
    /// Version 2 alone.
    pub const OFFSET64: Versions = Versions(2);
    /// Both versions.
    pub const BOTH: Versions = Versions(3);

    pub(crate) fn code(self) -> u8 {
        self.0
    }
}

impl Default for Versions {
    /// Both versions.
    fn default() -> Versions {
        Versions::BOTH
    }
}
