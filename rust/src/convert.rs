//! Files of one version made files of the other.

use crate::source::Source;
use crate::{ffi, Error, Refusal, Versions};
use std::io::{Read, Seek, Write};

/// What to make of a file: a new header, then the old file's bytes from [`Converted::from`] on.
#[derive(Debug, Clone, PartialEq, Eq)]
pub struct Converted {
    /// The new header.
    pub header: Vec<u8>,
    /// The new file's size.
    pub size: u64,
    /// Where the old header ends: what follows there stays as it is.
    pub from: u64,
}

/// Makes version 2 of a file, given its first bytes and its size. Either version is taken; a file of version 2 stays as it is,
/// but for empty lists.
///
/// ```
/// use fungalcove::{example, widen, Header, Versions, Window};
///
/// let old = &example::X;
/// let converted = widen(&old[..80], 92).unwrap();
/// assert_eq!((converted.header.len(), converted.size, converted.from), (84, 96, 80));
///
/// let mut new = converted.header;
/// new.extend_from_slice(&old[80..]);
/// let header = Header::read(&new, 96, Versions::OFFSET64).unwrap();
/// assert_eq!(header.read_var_i32("x", Window::whole(&new)).unwrap(), [7, -2, 40]);
/// ```
pub fn widen(prefix: &[u8], size: u64) -> Result<Converted, Refusal> {
    convert(ffi::widen, prefix, size)
}

/// Makes version 1 of a file, given its first bytes and its size; 25 where a variable begins too late for that. Either version
/// is taken; a file of version 1 stays as it is, but for empty lists.
///
/// ```
/// use fungalcove::{example, narrow, widen};
///
/// let wide = widen(&example::X, 92).unwrap();
/// let narrow = narrow(&wide.header, wide.size).unwrap();
/// assert_eq!(narrow.header, example::X[..80]);
/// assert_eq!(narrow.size, 92);
/// ```
pub fn narrow(prefix: &[u8], size: u64) -> Result<Converted, Refusal> {
    convert(ffi::narrow, prefix, size)
}

/// Number, the new header's length, the new file's size.
type Conversion = fn(&[u8], u64, &mut [u8]) -> (u8, u64, u64);

/// What a header gains at most: a begin takes 4 bytes more in version 2, and there are at most 64 variables.
const GAIN: usize = 4 * 64;
/// The room that is tried first: the prefix may be a whole file, of which the header is a small part.
const ROOM: usize = 1 << 14;
const OUTPUT_TOO_SHORT: u8 = 22;

fn convert(conversion: Conversion, prefix: &[u8], size: u64) -> Result<Converted, Refusal> {
    let most = prefix.len() + GAIN;
    let mut header = vec![0; most.min(ROOM)];
    let (mut number, mut length, mut new_size) = conversion(prefix, size, &mut header);
    if number == OUTPUT_TOO_SHORT && header.len() < most {
        header = vec![0; most];
        (number, length, new_size) = conversion(prefix, size, &mut header);
    }
    if number != 0 {
        return Err(Refusal::of_header(number, prefix, size, Versions::BOTH));
    }
    header.truncate(length as usize);
    // the file gains or loses what its header does
    let from = length.wrapping_sub(new_size.wrapping_sub(size));
    Ok(Converted { header, size: new_size, from })
}

/// Writes version 2 of the file that `reader` reads, and answers its size. Nothing is written where the file is refused.
///
/// ```
/// use fungalcove::{example, widen_file, FileReader, Version};
/// use std::io::Cursor;
///
/// let mut new = Vec::new();
/// assert_eq!(widen_file(Cursor::new(&example::X), &mut new).unwrap(), 96);
///
/// let mut file = FileReader::new(Cursor::new(new)).unwrap();
/// assert_eq!(file.version(), Version::Offset64);
/// assert_eq!(file.read_var_i32("x").unwrap(), [7, -2, 40]);
/// ```
pub fn widen_file<R: Read + Seek, W: Write>(reader: R, writer: W) -> Result<u64, Error> {
    convert_file(widen, reader, writer)
}

/// Writes version 1 of the file that `reader` reads, and answers its size. Nothing is written where the file is refused.
///
/// ```
/// use fungalcove::{example, narrow_file, widen_file};
/// use std::io::Cursor;
///
/// let (mut wide, mut narrow) = (Vec::new(), Vec::new());
/// widen_file(Cursor::new(&example::X), &mut wide).unwrap();
/// assert_eq!(narrow_file(Cursor::new(wide), &mut narrow).unwrap(), 92);
/// assert_eq!(narrow, example::X);
/// ```
pub fn narrow_file<R: Read + Seek, W: Write>(reader: R, writer: W) -> Result<u64, Error> {
    convert_file(narrow, reader, writer)
}

fn convert_file<R: Read + Seek, W: Write>(
    conversion: fn(&[u8], u64) -> Result<Converted, Refusal>,
    reader: R,
    mut writer: W,
) -> Result<u64, Error> {
    let mut source = Source::new(reader)?;
    let converted = source.ask_prefix(conversion)?.1?;
    writer.write_all(&converted.header)?;
    source.copy_rest(converted.from, &mut writer)?;
    writer.flush()?;
    Ok(converted.size)
}
