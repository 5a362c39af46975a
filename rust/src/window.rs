//! Bytes of a file that reads take values from.

/// Bytes of a file, and the file's position that they start at. A read whose bytes lie outside is refused with 20.
///
/// ```
/// use fungalcove::{example, Header, Versions, Window};
///
/// let file = &example::X;
/// let header = Header::read(file, 92, Versions::BOTH).unwrap();
/// let x = header.variable("x").unwrap();
///
/// let record_1_and_2 = Window { bytes: &file[84..], start: 84 };
/// assert_eq!(x.read_record_i32(record_1_and_2, 1).unwrap(), [-2]);
/// assert_eq!(x.read_record_i32(record_1_and_2, 0).unwrap_err().number, 20);
/// ```
#[derive(Debug, Clone, Copy, PartialEq, Eq, Default)]
pub struct Window<'a> {
    /// The bytes.
    pub bytes: &'a [u8],
    /// Where in the file the first of them stands.
    pub start: u64,
}

impl<'a> Window<'a> {
    /// A file's bytes, from its first on.
    ///
    /// ```
    /// use fungalcove::{example, Window};
    ///
    /// assert_eq!(Window::whole(&example::X).start, 0);
    /// ```
    pub fn whole(bytes: &'a [u8]) -> Window<'a> {
        Window { bytes, start: 0 }
    }

    /// No bytes at all: a read is then refused for its own sake, or with 20.
    pub(crate) fn empty() -> Window<'static> {
        Window { bytes: &[], start: 0 }
    }
}
