//! Variables: what the header says of them. `reads` has how their values are read.

use crate::ffi::{self, Placed, VARIABLE_WORDS};
use crate::{tables, Attribute, DataType, Dimension, Header, Refusal};
use std::fmt;
use std::ops::Range;

/// A variable of a header.
///
/// Its place in the file is worked out once, when the header hands it out; reads of the same `Variable` use it again.
///
/// ```
/// use fungalcove::{example, Header, Versions};
///
/// let header = Header::read(&example::X, 92, Versions::BOTH).unwrap();
/// let x = header.variable("x").unwrap();
/// assert_eq!((x.number(), x.begin(), x.is_empty()), (0, 80, false));
/// ```
#[derive(Clone, Copy)]
pub struct Variable<'h> {
    header: &'h Header,
    number: usize,
    placed: Placed,
}

impl<'h> Variable<'h> {
    /// `number` is below the header's number of variables.
    pub(crate) fn new(header: &'h Header, number: usize) -> Variable<'h> {
        let mut placed = [0; VARIABLE_WORDS];
        let answer = ffi::place_var(header.tables(), number as u64, &mut placed);
        assert_eq!(answer, 0, "a variable of a header that was read has a place");
        Variable { header, number, placed }
    }

    fn row(&self) -> usize {
        tables::variable(self.number)
    }

    /// The variable's name.
    ///
    /// ```
    /// use fungalcove::{example, Header, Versions};
    ///
    /// let header = Header::read(&example::X, 92, Versions::BOTH).unwrap();
    /// assert_eq!(header.variable_at(0).unwrap().name(), "x");
    /// ```
    pub fn name(&self) -> &'h str {
        self.header.name(self.row())
    }

    /// The variable's number in the file, from 0 on.
    pub fn number(&self) -> usize {
        self.number
    }

    /// The dimensions, slowest first; a record variable's first is the unlimited one.
    ///
    /// ```
    /// use fungalcove::{example, Header, Versions};
    ///
    /// let header = Header::read(example::STATION, example::STATION.len() as u64, Versions::BOTH).unwrap();
    /// let int = header.variable("int").unwrap();
    /// let names: Vec<&str> = int.dimensions().map(|dimension| dimension.name()).collect();
    /// assert_eq!(names, ["time", "place"]);
    /// ```
    pub fn dimensions(&self) -> impl ExactSizeIterator<Item = Dimension<'h>> + DoubleEndedIterator + 'h {
        let (header, row) = (self.header, self.row());
        let id = move |at: usize| header.word(row + tables::IDS + at) as usize;
        (0..header.count(row + tables::RANK)).map(move |at| Dimension::new(header, id(at)))
    }

    /// The variable's attributes, in the file's order.
    ///
    /// ```
    /// use fungalcove::{example, Header, Versions};
    ///
    /// let header = Header::read(example::STATION, example::STATION.len() as u64, Versions::BOTH).unwrap();
    /// assert_eq!(header.variable("height").unwrap().attributes().len(), 1);
    /// assert_eq!(header.variable("int").unwrap().attributes().len(), 0);
    /// ```
    pub fn attributes(&self) -> impl ExactSizeIterator<Item = Attribute<'h>> + DoubleEndedIterator + 'h {
        let (header, row) = (self.header, self.row());
        let first = header.count(row + tables::FIRST_ATTRIBUTE);
        let count = header.count(row + tables::ATTRIBUTES);
        (first..first + count).map(move |number| Attribute::new(header, number))
    }

    /// The attribute of a name.
    ///
    /// ```
    /// use fungalcove::{example, Header, Versions};
    ///
    /// let header = Header::read(example::STATION, example::STATION.len() as u64, Versions::BOTH).unwrap();
    /// let units = header.variable("height").unwrap().attribute("units").unwrap();
    /// assert_eq!(units.as_text(), Some("m"));
    /// ```
    pub fn attribute(&self, name: &str) -> Option<Attribute<'h>> {
        self.attributes().find(|attribute| attribute.name() == name)
    }

    /// The type of the values.
    ///
    /// ```
    /// use fungalcove::{example, DataType, Header, Versions};
    ///
    /// let header = Header::read(&example::X, 92, Versions::BOTH).unwrap();
    /// assert_eq!(header.variable("x").unwrap().data_type(), DataType::Int);
    /// ```
    pub fn data_type(&self) -> DataType {
        DataType::of_word(self.header.word(self.row() + tables::VARIABLE_TYPE))
    }

    /// Where in the file the first value stands.
    pub fn begin(&self) -> u64 {
        self.header.word(self.row() + tables::BEGIN)
    }

    /// The vsize word as it stands in the file, `None` where it is indeterminate. Nothing is computed from it.
    ///
    /// ```
    /// use fungalcove::{example, Header, Versions};
    ///
    /// let header = Header::read(&example::X, 92, Versions::BOTH).unwrap();
    /// assert_eq!(header.variable("x").unwrap().vsize(), Some(4));
    /// ```
    pub fn vsize(&self) -> Option<u32> {
        self.header.unless_open(self.row() + tables::VSIZE)
    }

    /// Whether the variable has the unlimited dimension.
    ///
    /// ```
    /// use fungalcove::{example, Header, Versions};
    ///
    /// let header = Header::read(example::STATION, example::STATION.len() as u64, Versions::BOTH).unwrap();
    /// assert!(header.variable("int").unwrap().is_record());
    /// assert!(!header.variable("height").unwrap().is_record());
    /// ```
    pub fn is_record(&self) -> bool {
        let first = self.dimensions().next();
        first.map_or(false, |dimension| dimension.is_unlimited())
    }

    /// How many records the variable has: the file's count, or 1 for a fixed variable, which has record 0 only.
    ///
    /// ```
    /// use fungalcove::{example, Header, Versions};
    ///
    /// let header = Header::read(example::STATION, example::STATION.len() as u64, Versions::BOTH).unwrap();
    /// assert_eq!(header.variable("int").unwrap().records(), 2);
    /// assert_eq!(header.variable("height").unwrap().records(), 1);
    /// ```
    pub fn records(&self) -> u64 {
        self.placed[1]
    }

    /// How many elements a record has.
    ///
    /// ```
    /// use fungalcove::{example, Header, Versions};
    ///
    /// let header = Header::read(&example::X, 92, Versions::BOTH).unwrap();
    /// assert_eq!(header.variable("x").unwrap().record_len(), 1);
    /// ```
    pub fn record_len(&self) -> u64 {
        self.placed[3]
    }

    /// How many elements there are in all records.
    ///
    /// ```
    /// use fungalcove::{example, Header, Versions};
    ///
    /// let header = Header::read(&example::X, 92, Versions::BOTH).unwrap();
    /// assert_eq!(header.variable("x").unwrap().len(), 3);
    /// ```
    pub fn len(&self) -> u64 {
        // no overflow: the last record ends at 2^62 or before, and an element takes a byte at least
        self.records() * self.record_len()
    }

    /// Whether there are no elements: so it is with a record variable in a file of no records.
    pub fn is_empty(&self) -> bool {
        self.len() == 0
    }

    /// The file's bytes that hold the values of a record, without padding; 18 if there is no such record.
    ///
    /// ```
    /// use fungalcove::{example, Header, Versions};
    ///
    /// let header = Header::read(&example::X, 92, Versions::BOTH).unwrap();
    /// let x = header.variable("x").unwrap();
    /// assert_eq!(x.record_bytes(1).unwrap(), 84..88);
    /// assert_eq!(x.record_bytes(3).unwrap_err().number, 18);
    /// ```
    pub fn record_bytes(&self, record: u64) -> Result<Range<u64>, Refusal> {
        if record >= self.records() {
            return Err(Refusal::without_place(18));
        }
        let start = self.begin() + record * self.step();
        Ok(start..start + self.record_len() * self.data_type().size())
    }

    /// From one record to the next, in bytes.
    pub(crate) fn step(&self) -> u64 {
        self.placed[2]
    }

    pub(crate) fn placed(&self) -> &Placed {
        &self.placed
    }
}

impl fmt::Debug for Variable<'_> {
    fn fmt(&self, f: &mut fmt::Formatter<'_>) -> fmt::Result {
        f.debug_struct("Variable")
            .field("name", &self.name())
            .field("data_type", &self.data_type())
            .field("dimensions", &self.dimensions().collect::<Vec<_>>())
            .field("attributes", &self.attributes().collect::<Vec<_>>())
            .field("begin", &self.begin())
            .finish()
    }
}
