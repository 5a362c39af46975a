//! Files that are read piece by piece.

use crate::element::for_type;
use crate::source::{grow, Source};
use crate::{Element, Error, Header, Refusal, Value, Values, Variable, Version, Versions, Window};
use std::fmt;
use std::fs::File;
use std::io::{Read, Seek};
use std::path::Path;

/// The answer to a read that wants only the bytes.
const BYTES_WANTED: u8 = 20;
/// Records that lie back to back are fetched together, up to so many bytes.
const PIECE: u64 = 1 << 20;
/// As many bytes of padding may follow a record's values.
const MOST_PADDING: u64 = 3;

/// An open file: its header, and reads that fetch only the bytes that they need. Positions have 64 bits, on 32-bit machines
/// too.
///
/// ```
/// use fungalcove::{FileReader, Version};
/// # use fungalcove::example;
/// # let path = std::env::temp_dir().join(format!("fungalcove-{}.nc", std::process::id()));
/// # std::fs::write(&path, example::X).unwrap();
///
/// let mut file = FileReader::open(&path).unwrap();
/// assert_eq!(file.version(), Version::Classic);
/// assert_eq!(file.header().record_count(), 3);
/// assert_eq!(file.read_record_i32("x", 1).unwrap(), [-2]);
/// # std::fs::remove_file(&path).unwrap();
/// ```
pub struct FileReader<R> {
    header: Header,
    source: Source<R>,
}

impl FileReader<File> {
    /// Opens the file of a path and reads its header; both versions are admitted.
    pub fn open<P: AsRef<Path>>(path: P) -> Result<FileReader<File>, Error> {
        FileReader::new(File::open(path)?)
    }
}

macro_rules! reads_by_name {
    ($($type:ty, $variable:literal, $values:literal, $record:literal, $read_var:ident, $read_record:ident;)*) => {$(
        #[doc = concat!("All values of a variable of `", stringify!($type), "`s.")]
        ///
        /// ```
        /// # use fungalcove::{example, FileReader};
        /// # let mut file = FileReader::new(std::io::Cursor::new(example::STATION)).unwrap();
        #[doc = concat!("assert_eq!(file.", stringify!($read_var), "(\"", $variable, "\").unwrap(), ", $values, ");")]
        /// ```
        pub fn $read_var(&mut self, name: &str) -> Result<Vec<$type>, Error> {
            self.read_var_as(name)
        }

        #[doc = concat!("One record of a variable of `", stringify!($type), "`s.")]
        ///
        /// ```
        /// # use fungalcove::{example, FileReader};
        /// # let mut file = FileReader::new(std::io::Cursor::new(example::STATION)).unwrap();
        #[doc = concat!("assert_eq!(file.", stringify!($read_record), "(\"", $variable, "\", 1).unwrap(), ", $record, ");")]
        /// ```
        pub fn $read_record(&mut self, name: &str, record: u64) -> Result<Vec<$type>, Error> {
            self.read_record_as(name, record)
        }
    )*};
}

impl<R: Read + Seek> FileReader<R> {
    /// Reads the header of whatever can be read and sought; both versions are admitted. The file starts at position 0.
    ///
    /// ```
    /// use fungalcove::{example, FileReader};
    /// use std::io::Cursor;
    ///
    /// let file = FileReader::new(Cursor::new(&example::X)).unwrap();
    /// assert_eq!(file.header().end(), 80);
    /// ```
    pub fn new(reader: R) -> Result<FileReader<R>, Error> {
        FileReader::with_versions(reader, Versions::BOTH)
    }

    /// As [`FileReader::new`], with the versions that are admitted.
    ///
    /// ```
    /// use fungalcove::{example, FileReader, Versions};
    /// use std::io::Cursor;
    ///
    /// let file = FileReader::with_versions(Cursor::new(&example::X), Versions::OFFSET64);
    /// assert_eq!(file.unwrap_err().refusal().unwrap().number, 4);
    /// ```
    pub fn with_versions(reader: R, versions: Versions) -> Result<FileReader<R>, Error> {
        let mut source = Source::new(reader)?;
        let header = source.ask_prefix(|prefix, size| Header::read(prefix, size, versions))?.1?;
        Ok(FileReader { header, source })
    }

    /// The file's header.
    pub fn header(&self) -> &Header {
        &self.header
    }

    /// The file's version.
    pub fn version(&self) -> Version {
        self.header.version()
    }

    /// The header, and what the file was read through.
    ///
    /// ```
    /// use fungalcove::{example, FileReader};
    /// use std::io::Cursor;
    ///
    /// let file = FileReader::new(Cursor::new(&example::X)).unwrap();
    /// let (header, _cursor) = file.into_parts();
    /// assert_eq!(header.record_count(), 3);
    /// ```
    pub fn into_parts(self) -> (Header, R) {
        (self.header, self.source.into_reader())
    }

    /// All values of a variable, whatever its type.
    ///
    /// ```
    /// use fungalcove::{example, FileReader, Values};
    /// use std::io::Cursor;
    ///
    /// let mut file = FileReader::new(Cursor::new(example::STATION)).unwrap();
    /// assert_eq!(file.read_var("height").unwrap(), Values::Float(vec![12.5, 340.0]));
    /// ```
    pub fn read_var(&mut self, name: &str) -> Result<Values, Error> {
        let data_type = self.header.variable(name)?.data_type();
        for_type!(data_type, T => self.read_var_as::<T>(name).map(Values::from))
    }

    /// One record of a variable, whatever its type. A fixed variable has record 0 only.
    ///
    /// ```
    /// use fungalcove::{example, FileReader, Values};
    /// use std::io::Cursor;
    ///
    /// let mut file = FileReader::new(Cursor::new(example::STATION)).unwrap();
    /// assert_eq!(file.read_record("short", 0).unwrap(), Values::Short(vec![1, -1]));
    /// ```
    pub fn read_record(&mut self, name: &str, record: u64) -> Result<Values, Error> {
        let data_type = self.header.variable(name)?.data_type();
        for_type!(data_type, T => self.read_record_as::<T>(name, record).map(Values::from))
    }

    /// One element of a variable, whatever its type.
    ///
    /// ```
    /// use fungalcove::{example, FileReader, Value};
    /// use std::io::Cursor;
    ///
    /// let mut file = FileReader::new(Cursor::new(example::STATION)).unwrap();
    /// assert_eq!(file.read_element("double", 0, 1).unwrap(), Value::Double(-0.25));
    /// ```
    pub fn read_element(&mut self, name: &str, record: u64, element: u64) -> Result<Value, Error> {
        let FileReader { header, source } = self;
        let variable = header.variable(name)?;
        match variable.element(Window::empty(), record, element) {
            Err(Refusal { number: BYTES_WANTED, .. }) => (),
            answer => return Ok(answer?),
        }
        let size = variable.data_type().size();
        let start = variable.record_bytes(record)?.start + element * size;
        let mut bytes = Vec::new();
        source.fetch(start, size, &mut bytes)?;
        Ok(variable.element(Window { bytes: &bytes, start }, record, element)?)
    }

    /// All values of a variable, as the type that is asked for.
    ///
    /// ```
    /// use fungalcove::{example, FileReader};
    /// use std::io::Cursor;
    ///
    /// let mut file = FileReader::new(Cursor::new(&example::X)).unwrap();
    /// let values: Vec<i32> = file.read_var_as("x").unwrap();
    /// assert_eq!(values, [7, -2, 40]);
    /// ```
    pub fn read_var_as<T: Element>(&mut self, name: &str) -> Result<Vec<T>, Error> {
        let FileReader { header, source } = self;
        let variable = header.variable(name)?;
        let room = variable.room::<T>(variable.len(), source.size());
        if room == 0 {
            return Ok(variable.read(Window::empty())?);
        }
        let mut out = Vec::new();
        grow(&mut out, room)?;
        read_pieces(&variable, source, &mut out)?;
        Ok(out)
    }

    /// One record of a variable, as the type that is asked for.
    ///
    /// ```
    /// use fungalcove::{example, FileReader};
    /// use std::io::Cursor;
    ///
    /// let mut file = FileReader::new(Cursor::new(&example::X)).unwrap();
    /// let values: Vec<i32> = file.read_record_as("x", 2).unwrap();
    /// assert_eq!(values, [40]);
    /// ```
    pub fn read_record_as<T: Element>(&mut self, name: &str, record: u64) -> Result<Vec<T>, Error> {
        let FileReader { header, source } = self;
        let variable = header.variable(name)?;
        let room = variable.room::<T>(variable.record_len(), source.size());
        if room == 0 || record >= variable.records() {
            return Ok(variable.read_record(Window::empty(), record)?);
        }
        let (range, mut bytes) = (variable.record_bytes(record)?, Vec::new());
        source.fetch(range.start, range.end - range.start, &mut bytes)?;
        Ok(variable.read_record(Window { bytes: &bytes, start: range.start }, record)?)
    }

    reads_by_name! {
        i8, "byte", "[1, -1, 127, -128]", "[127, -128]", read_var_i8, read_record_i8;
        u8, "char", "[78, 67, 51, 255]", "[51, 255]", read_var_u8, read_record_u8;
        i16, "short", "[1, -1, 32767, -32768]", "[32767, -32768]", read_var_i16, read_record_i16;
        i32, "int", "[1, -1, i32::MAX, i32::MIN]", "[i32::MAX, i32::MIN]", read_var_i32, read_record_i32;
        f32, "float", "[0.5, -0.25, 1e10, 0.0]", "[1e10, 0.0]", read_var_f32, read_record_f32;
        f64, "double", "[0.5, -0.25, 1e100, 0.0]", "[1e100, 0.0]", read_var_f64, read_record_f64;
    }
}

/// How many records are fetched at a time: one, unless nothing but padding lies between them.
fn records_a_piece(variable: &Variable<'_>) -> u64 {
    let bytes = variable.record_len() * variable.data_type().size();
    if variable.step() <= bytes + MOST_PADDING {
        (PIECE / variable.step().max(1)).max(1)
    } else {
        1
    }
}

/// All records of a variable, into an output that has just their length.
fn read_pieces<T: Element, R: Read + Seek>(
    variable: &Variable<'_>,
    source: &mut Source<R>,
    out: &mut [T],
) -> Result<(), Error> {
    let (most, mut bytes) = (records_a_piece(variable), Vec::new());
    let mut records = out.chunks_exact_mut(variable.record_len() as usize);
    let mut first = 0;
    while first < variable.records() {
        let last = (first + most).min(variable.records()) - 1;
        let start = variable.record_bytes(first)?.start;
        source.fetch(start, variable.record_bytes(last)?.end - start, &mut bytes)?;
        let window = Window { bytes: &bytes, start };
        for (record, out) in (first..=last).zip(&mut records) {
            variable.read_record_into(window, record, out)?;
        }
        first = last + 1;
    }
    Ok(())
}

impl<R> fmt::Debug for FileReader<R> {
    fn fmt(&self, f: &mut fmt::Formatter<'_>) -> fmt::Result {
        f.debug_struct("FileReader").field("header", &self.header).finish_non_exhaustive()
    }
}
