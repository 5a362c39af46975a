//! Attributes, global ones and those of a variable.

use crate::element::{for_type, sealed::Sealed};
use crate::{tables, DataType, Header, Values};
use std::fmt;

/// An attribute of a header: a name and values of one type.
///
/// ```
/// use fungalcove::{example, DataType, Header, Versions};
///
/// let header = Header::read(example::STATION, example::STATION.len() as u64, Versions::BOTH).unwrap();
/// let levels = header.attribute("levels").unwrap();
/// assert_eq!((levels.data_type(), levels.len(), levels.is_empty()), (DataType::Short, 2, false));
/// ```
#[derive(Clone, Copy)]
pub struct Attribute<'h> {
    header: &'h Header,
    row: usize,
}

impl<'h> Attribute<'h> {
    pub(crate) fn new(header: &'h Header, number: usize) -> Attribute<'h> {
        Attribute { header, row: tables::attribute(number) }
    }

    /// The attribute's name.
    ///
    /// ```
    /// use fungalcove::{example, Header, Versions};
    ///
    /// let header = Header::read(example::STATION, example::STATION.len() as u64, Versions::BOTH).unwrap();
    /// let names: Vec<&str> = header.attributes().map(|attribute| attribute.name()).collect();
    /// assert_eq!(names, ["title", "levels"]);
    /// ```
    pub fn name(&self) -> &'h str {
        self.header.name(self.row)
    }

    /// The type of the values.
    pub fn data_type(&self) -> DataType {
        DataType::of_word(self.header.word(self.row + tables::ATTRIBUTE_TYPE))
    }

    /// How many values there are.
    pub fn len(&self) -> u64 {
        self.header.word(self.row + tables::ELEMENTS)
    }

    /// Whether there are no values.
    pub fn is_empty(&self) -> bool {
        self.len() == 0
    }

    /// The values as they stand in the header: big-endian, without the padding.
    ///
    /// ```
    /// use fungalcove::{example, Header, Versions};
    ///
    /// let header = Header::read(example::STATION, example::STATION.len() as u64, Versions::BOTH).unwrap();
    /// assert_eq!(header.attribute("levels").unwrap().bytes(), [0, 3, 0, 5]);
    /// ```
    pub fn bytes(&self) -> &'h [u8] {
        self.header.part(self.header.word(self.row + tables::VALUES), self.len() * self.data_type().size())
    }

    /// The values.
    ///
    /// ```
    /// use fungalcove::{example, Header, Values, Versions};
    ///
    /// let header = Header::read(example::STATION, example::STATION.len() as u64, Versions::BOTH).unwrap();
    /// assert_eq!(header.attribute("levels").unwrap().values(), Values::Short(vec![3, 5]));
    /// ```
    pub fn values(&self) -> Values {
        for_type!(self.data_type(), T => Values::from(T::of_bytes(self.bytes())))
    }

    /// The text of an attribute of type char, where it is UTF-8.
    ///
    /// ```
    /// use fungalcove::{example, Header, Versions};
    ///
    /// let header = Header::read(example::STATION, example::STATION.len() as u64, Versions::BOTH).unwrap();
    /// assert_eq!(header.attribute("title").unwrap().as_text(), Some("A station"));
    /// assert_eq!(header.attribute("levels").unwrap().as_text(), None);
    /// ```
    pub fn as_text(&self) -> Option<&'h str> {
        match self.data_type() {
            DataType::Char => std::str::from_utf8(self.bytes()).ok(),
            _ => None,
        }
    }
}

impl fmt::Debug for Attribute<'_> {
    fn fmt(&self, f: &mut fmt::Formatter<'_>) -> fmt::Result {
        f.debug_struct("Attribute").field("name", &self.name()).field("values", &self.values()).finish()
    }
}
