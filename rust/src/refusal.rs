//! Answers other than "accepted", by document 01's numbers.

use crate::{ffi, Versions};
use std::fmt;

/// Why something was refused: a number of the table below and, for what was read from left to right, its place.
///
/// | number | given exactly when |
/// |---|---|
/// | 1 | header unfinished, prefix shorter than the size |
/// | 2 | header unfinished, prefix is the whole file |
/// | 3 | first three bytes depart from CDF |
/// | 4 | version byte not admitted |
/// | 5 | word outside its range |
/// | 6 | name not UTF-8 |
/// | 7 | padding byte not zero |
/// | 8 | type code not 1 to 6 |
/// | 9 | list start is neither absent nor its tag |
/// | 10 | capacity passed |
/// | 11 | model rule broken |
/// | 12 | begin negative or above 2^62, padded chunk or record size above 2^60 |
/// | 13 | open count: division leaves a rest |
/// | 14 | open count: size below the smallest record begin |
/// | 15 | some variable ends above 2^62 |
/// | 16 | no such variable |
/// | 17 | variable has another type |
/// | 18 | no such record |
/// | 19 | no such element |
/// | 20 | window doesn't hold the bytes |
/// | 21 | prefix longer than size, or size above 2^62 |
/// | 22 | output too short |
/// | 23 | tables out of order |
/// | 24 | widening, narrowing: a begin lies below the header's end |
/// | 25 | narrowing: a moved begin above 2147483647 |
///
/// The capacities of 10: 32 dimensions, 64 variables, 128 attributes over all lists, 8 dimensions a variable, 256 bytes a
/// name.
///
/// ```
/// use fungalcove::{Header, Versions};
///
/// let refusal = Header::read(b"CDF\x03", 4, Versions::BOTH).unwrap_err();
/// assert_eq!((refusal.number, refusal.place), (4, Some(3)));
/// assert_eq!(refusal.to_string(), "4 at byte 3: version byte not admitted");
/// ```
#[derive(Debug, Clone, Copy, PartialEq, Eq, Hash)]
pub struct Refusal {
    /// The table's number, 1 to 25.
    pub number: u8,
    /// The byte of the file where it showed; only the numbers 1 to 10 have one.
    pub place: Option<u64>,
}

impl Refusal {
    /// The table's words for the number.
    ///
    /// ```
    /// use fungalcove::{example, Header, Versions};
    ///
    /// let header = Header::read(&example::X, 92, Versions::BOTH).unwrap();
    /// assert_eq!(header.variable("y").unwrap_err().words(), "no such variable");
    /// ```
    pub fn words(&self) -> &'static str {
        WORDS.get(usize::from(self.number)).copied().unwrap_or("no number of the table")
    }

    /// The whole table: every number, 0 to 25, and its words.
    ///
    /// ```
    /// use fungalcove::Refusal;
    ///
    /// assert_eq!(Refusal::table().next(), Some((0, "accepted")));
    /// assert_eq!(Refusal::table().nth(7), Some((7, "padding byte not zero")));
    /// ```
    pub fn table() -> impl Iterator<Item = (u8, &'static str)> {
        (0..).zip(WORDS)
    }

    /// What was refused by a number while the header was read, or after it.
    pub(crate) fn of_header(number: u8, prefix: &[u8], size: u64, versions: Versions) -> Refusal {
        let place = match number {
            1..=10 => Some(ffi::header_place(prefix, size, versions.code())),
            _ => None,
        };
        Refusal { number, place }
    }

    /// A file that ends, at its size, inside its header.
    pub(crate) fn cut_off(size: u64) -> Refusal {
        Refusal { number: 2, place: Some(size) }
    }

    pub(crate) fn without_place(number: u8) -> Refusal {
        Refusal { number, place: None }
    }

    /// 0 is no refusal.
    pub(crate) fn check(number: u8) -> Result<(), Refusal> {
        match number {
            0 => Ok(()),
            _ => Err(Refusal::without_place(number)),
        }
    }
}

/// Document 01's table, the number first.
const WORDS: [&str; 26] = [
    "accepted",
    "header unfinished, prefix shorter than the size",
    "header unfinished, prefix is the whole file",
    "first three bytes depart from CDF",
    "version byte not admitted",
    "word outside its range",
    "name not UTF-8",
    "padding byte not zero",
    "type code not 1 to 6",
    "list start is neither absent nor its tag",
    "capacity passed",
    "model rule broken",
    "begin negative or above 2^62, padded chunk or record size above 2^60",
    "open count: division leaves a rest",
    "open count: size below the smallest record begin",
    "some variable ends above 2^62",
    "no such variable",
    "variable has another type",
    "no such record",
    "no such element",
    "window doesn't hold the bytes",
    "prefix longer than size, or size above 2^62",
    "output too short",
    "tables out of order",
    "widening, narrowing: a begin lies below the header's end",
    "narrowing: a moved begin above 2147483647",
];

impl fmt::Display for Refusal {
    fn fmt(&self, f: &mut fmt::Formatter<'_>) -> fmt::Result {
        match self.place {
            Some(place) => write!(f, "{} at byte {}: {}", self.number, place, self.words()),
            None => write!(f, "{}: {}", self.number, self.words()),
        }
    }
}

impl std::error::Error for Refusal {}
