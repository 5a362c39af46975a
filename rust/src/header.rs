//! Headers.

use crate::ffi::{self, Tables};
use crate::{tables, Attribute, Dimension, Guest32, Refusal, Variable, Version, Versions};
use std::fmt;

/// A file's header: its dimensions, attributes and variables. It owns what it needs and keeps nothing of the file open.
///
/// ```
/// use fungalcove::{example, Header, Versions};
///
/// let header = Header::read(&example::X, 92, Versions::BOTH).unwrap();
/// assert_eq!((header.end(), header.size()), (80, 92));
/// assert_eq!(header.bytes(), &example::X[..80]);
/// ```
#[derive(Clone)]
pub struct Header {
    /// The file's first bytes, up to the header's end. The tables' places are places in it.
    bytes: Box<[u8]>,
    tables: Box<Tables>,
}

impl Header {
    /// Reads a header out of a file's first bytes.
    ///
    /// `size` is the whole file's. The prefix may end anywhere: where the header is not all in it the refusal's number is 1,
    /// and a longer prefix is wanted.
    ///
    /// ```
    /// use fungalcove::{example, Header, Versions};
    ///
    /// let file = &example::X;
    /// let unfinished = Header::read(&file[..40], 92, Versions::BOTH).unwrap_err();
    /// assert_eq!((unfinished.number, unfinished.place), (1, Some(40)));
    ///
    /// let header = Header::read(&file[..80], 92, Versions::BOTH).unwrap();
    /// assert_eq!((header.record_count(), header.end()), (3, 80));
    /// ```
    pub fn read(prefix: &[u8], size: u64, versions: Versions) -> Result<Header, Refusal> {
        let mut tables = ffi::no_tables();
        match ffi::read_header(prefix, size, versions.code(), &mut tables) {
            (0, end) => Ok(Header { bytes: prefix[..end as usize].into(), tables }),
            (number, _) => Err(Refusal::of_header(number, prefix, size, versions)),
        }
    }

    /// The header written anew: as it was read, but every empty list is eight zero bytes.
    ///
    /// ```
    /// use fungalcove::{example, Header, Versions};
    ///
    /// let header = Header::read(&example::X, 92, Versions::BOTH).unwrap();
    /// assert_eq!(header.write(), example::X[..80]);
    /// ```
    pub fn write(&self) -> Vec<u8> {
        // an empty list takes eight bytes in both forms, so the length is the one that was read
        let mut out = vec![0; self.bytes.len()];
        let (number, length) = ffi::write_header(&self.tables, &self.bytes, &mut out);
        assert_eq!((number, length), (0, self.end()), "a header that was read is written");
        out
    }

    /// The file's version.
    ///
    /// ```
    /// use fungalcove::{example, Header, Version, Versions};
    ///
    /// let header = Header::read(&example::X, 92, Versions::BOTH).unwrap();
    /// assert_eq!(header.version(), Version::Classic);
    /// ```
    pub fn version(&self) -> Version {
        Version::of_word(self.word(tables::VERSION))
    }

    /// How many records there are; computed from the file's size where the count was left open. 0 without an unlimited
    /// dimension.
    ///
    /// ```
    /// use fungalcove::{example, Header, Versions};
    ///
    /// let header = Header::read(&example::X, 4294967388, Versions::BOTH).unwrap();
    /// assert_eq!(header.record_count(), 1073741827);
    /// ```
    pub fn record_count(&self) -> u64 {
        self.word(tables::RECORDS)
    }

    /// The record count as it stands in the file; `None` where it was left open.
    ///
    /// ```
    /// use fungalcove::{example, Header, Versions};
    ///
    /// let header = Header::read(&example::X, 92, Versions::BOTH).unwrap();
    /// assert_eq!(header.count_word(), None);
    /// ```
    pub fn count_word(&self) -> Option<u32> {
        self.unless_open(tables::COUNT_WORD)
    }

    /// The whole file's size, as it was told to [`Header::read`].
    pub fn size(&self) -> u64 {
        self.word(tables::SIZE)
    }

    /// Where the header ends: its length in bytes.
    pub fn end(&self) -> u64 {
        self.bytes.len() as u64
    }

    /// The file's first bytes, up to the header's end, as they were read.
    pub fn bytes(&self) -> &[u8] {
        &self.bytes
    }

    /// All dimensions, in the file's order.
    ///
    /// ```
    /// use fungalcove::{example, Header, Versions};
    ///
    /// let header = Header::read(example::STATION, example::STATION.len() as u64, Versions::BOTH).unwrap();
    /// assert_eq!(header.dimensions().len(), 2);
    /// ```
    pub fn dimensions(&self) -> impl ExactSizeIterator<Item = Dimension<'_>> + DoubleEndedIterator + '_ {
        (0..self.count(tables::DIMENSIONS)).map(move |number| Dimension::new(self, number))
    }

    /// The dimension of a name.
    ///
    /// ```
    /// use fungalcove::{example, Header, Versions};
    ///
    /// let header = Header::read(&example::X, 92, Versions::BOTH).unwrap();
    /// assert!(header.dimension("t").unwrap().is_unlimited());
    /// assert!(header.dimension("u").is_none());
    /// ```
    pub fn dimension(&self, name: &str) -> Option<Dimension<'_>> {
        self.dimensions().find(|dimension| dimension.name() == name)
    }

    /// The unlimited dimension, if there is one.
    ///
    /// ```
    /// use fungalcove::{example, Header, Versions};
    ///
    /// let header = Header::read(&example::X, 92, Versions::BOTH).unwrap();
    /// assert_eq!(header.unlimited_dimension().unwrap().name(), "t");
    /// ```
    pub fn unlimited_dimension(&self) -> Option<Dimension<'_>> {
        self.dimensions().find(Dimension::is_unlimited)
    }

    /// All global attributes, in the file's order.
    ///
    /// ```
    /// use fungalcove::{example, Header, Versions};
    ///
    /// let header = Header::read(&example::X, 92, Versions::BOTH).unwrap();
    /// assert_eq!(header.attributes().len(), 0);
    /// ```
    pub fn attributes(&self) -> impl ExactSizeIterator<Item = Attribute<'_>> + DoubleEndedIterator + '_ {
        (0..self.count(tables::GLOBAL_ATTRIBUTES)).map(move |number| Attribute::new(self, number))
    }

    /// The global attribute of a name.
    ///
    /// ```
    /// use fungalcove::{example, Header, Versions};
    ///
    /// let header = Header::read(example::STATION, example::STATION.len() as u64, Versions::BOTH).unwrap();
    /// assert_eq!(header.attribute("title").unwrap().as_text(), Some("A station"));
    /// assert!(header.attribute("history").is_none());
    /// ```
    pub fn attribute(&self, name: &str) -> Option<Attribute<'_>> {
        self.attributes().find(|attribute| attribute.name() == name)
    }

    /// All variables, in the file's order.
    ///
    /// ```
    /// use fungalcove::{example, Header, Versions};
    ///
    /// let header = Header::read(example::STATION, example::STATION.len() as u64, Versions::BOTH).unwrap();
    /// let names: Vec<&str> = header.variables().map(|variable| variable.name()).collect();
    /// assert_eq!(names, ["height", "byte", "char", "short", "int", "float", "double"]);
    /// ```
    pub fn variables(&self) -> impl ExactSizeIterator<Item = Variable<'_>> + DoubleEndedIterator + '_ {
        (0..self.count(tables::VARIABLES)).map(move |number| Variable::new(self, number))
    }

    /// The variable of a name; 16 if there is none.
    ///
    /// ```
    /// use fungalcove::{example, Header, Versions};
    ///
    /// let header = Header::read(&example::X, 92, Versions::BOTH).unwrap();
    /// assert_eq!(header.variable("x").unwrap().begin(), 80);
    /// assert_eq!(header.variable("y").unwrap_err().number, 16);
    /// ```
    pub fn variable(&self, name: &str) -> Result<Variable<'_>, Refusal> {
        let (number, found) = ffi::find_var(&self.tables, &self.bytes, name.as_bytes());
        Refusal::check(number)?;
        Ok(Variable::new(self, found as usize))
    }

    /// The variable of a number, from 0 on in the file's order; 16 if there is none.
    ///
    /// ```
    /// use fungalcove::{example, Header, Versions};
    ///
    /// let header = Header::read(&example::X, 92, Versions::BOTH).unwrap();
    /// assert_eq!(header.variable_at(0).unwrap().name(), "x");
    /// assert_eq!(header.variable_at(1).unwrap_err().number, 16);
    /// ```
    pub fn variable_at(&self, number: usize) -> Result<Variable<'_>, Refusal> {
        if number < self.count(tables::VARIABLES) {
            Ok(Variable::new(self, number))
        } else {
            Err(Refusal::without_place(16))
        }
    }

    /// What a 32-bit build of netcdf3 0.6.1 makes of the file.
    ///
    /// ```
    /// use fungalcove::{example, Header, Versions};
    ///
    /// let header = Header::read(&example::X, 4294967376, Versions::BOTH).unwrap();
    /// assert_eq!((header.record_count(), header.guest32().records), (1073741824, Ok(0)));
    /// ```
    pub fn guest32(&self) -> Guest32 {
        Guest32::of(self)
    }

    pub(crate) fn tables(&self) -> &Tables {
        &self.tables
    }

    pub(crate) fn word(&self, at: usize) -> u64 {
        self.tables[at]
    }

    /// A word of 32 bits that may have been left open.
    pub(crate) fn unless_open(&self, at: usize) -> Option<u32> {
        match self.word(at) {
            tables::OPEN => None,
            word => Some(word as u32),
        }
    }

    /// A number of rows; capacities keep it small.
    pub(crate) fn count(&self, at: usize) -> usize {
        self.word(at) as usize
    }

    /// Bytes of the header: what the tables point to lies inside.
    pub(crate) fn part(&self, start: u64, length: u64) -> &[u8] {
        &self.bytes[start as usize..(start + length) as usize]
    }

    /// The name that a row starts with.
    pub(crate) fn name(&self, row: usize) -> &str {
        let bytes = self.part(self.word(row + tables::NAME), self.word(row + tables::NAME_BYTES));
        std::str::from_utf8(bytes).expect("the header reader accepts only UTF-8 names")
    }
}

impl fmt::Debug for Header {
    fn fmt(&self, f: &mut fmt::Formatter<'_>) -> fmt::Result {
        f.debug_struct("Header")
            .field("version", &self.version())
            .field("record_count", &self.record_count())
            .field("dimensions", &self.dimensions().collect::<Vec<_>>())
            .field("attributes", &self.attributes().collect::<Vec<_>>())
            .field("variables", &self.variables().collect::<Vec<_>>())
            .finish()
    }
}
