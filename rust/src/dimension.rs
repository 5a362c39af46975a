//! Dimensions.

use crate::{tables, Header};
use std::fmt;

/// A dimension of a header.
///
/// ```
/// use fungalcove::{example, Header, Versions};
///
/// let header = Header::read(&example::X, 92, Versions::BOTH).unwrap();
/// let t = header.dimension("t").unwrap();
/// assert_eq!((t.number(), t.is_unlimited(), t.is_empty()), (0, true, false));
/// ```
#[derive(Clone, Copy)]
pub struct Dimension<'h> {
    header: &'h Header,
    number: usize,
}

impl<'h> Dimension<'h> {
    pub(crate) fn new(header: &'h Header, number: usize) -> Dimension<'h> {
        Dimension { header, number }
    }

    /// The dimension's name.
    ///
    /// ```
    /// use fungalcove::{example, Header, Versions};
    ///
    /// let header = Header::read(&example::X, 92, Versions::BOTH).unwrap();
    /// assert_eq!(header.dimensions().next().unwrap().name(), "t");
    /// ```
    pub fn name(&self) -> &'h str {
        self.header.name(tables::dimension(self.number))
    }

    /// The dimension's number in the file, from 0 on: the id by which variables name it.
    pub fn number(&self) -> usize {
        self.number
    }

    /// The length; `None` for the unlimited dimension.
    ///
    /// ```
    /// use fungalcove::{example, Header, Versions};
    ///
    /// let header = Header::read(example::STATION, example::STATION.len() as u64, Versions::BOTH).unwrap();
    /// assert_eq!(header.dimension("place").unwrap().length(), Some(2));
    /// assert_eq!(header.dimension("time").unwrap().length(), None);
    /// ```
    pub fn length(&self) -> Option<u64> {
        match self.header.word(tables::dimension(self.number) + tables::LENGTH) {
            0 => None,
            length => Some(length),
        }
    }

    /// Whether this is the unlimited dimension, the one that records are counted along.
    pub fn is_unlimited(&self) -> bool {
        self.length().is_none()
    }

    /// The length; for the unlimited dimension the file's number of records.
    ///
    /// ```
    /// use fungalcove::{example, Header, Versions};
    ///
    /// let header = Header::read(&example::X, 92, Versions::BOTH).unwrap();
    /// assert_eq!(header.dimension("t").unwrap().len(), 3);
    /// ```
    pub fn len(&self) -> u64 {
        self.length().unwrap_or_else(|| self.header.record_count())
    }

    /// Whether the length is 0: only that of the unlimited dimension can be.
    pub fn is_empty(&self) -> bool {
        self.len() == 0
    }
}

impl fmt::Debug for Dimension<'_> {
    fn fmt(&self, f: &mut fmt::Formatter<'_>) -> fmt::Result {
        f.debug_struct("Dimension").field("name", &self.name()).field("length", &self.length()).finish()
    }
}
