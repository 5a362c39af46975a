//! A file's first bytes, and what the header reader answers to them.

use crate::source::{grow, Source};
use crate::{Header, Refusal, Versions};
use std::io::{self, Read, Seek};

/// How many bytes of a stream are read at a time.
const BLOCK: u64 = 1 << 16;
/// The largest size that is allowed: what a stream may still turn out to be.
const LARGEST: u64 = 1 << 62;

/// As many of a file's first bytes as its header needs, its size, and the answer to them. Unlike a
/// [`FileReader`](crate::FileReader), it keeps the bytes of a header that is refused.
///
/// ```
/// use fungalcove::{example, Opening, Versions};
/// use std::io::Cursor;
///
/// let opening = Opening::of_file(&mut Cursor::new(&example::X), Versions::BOTH).unwrap();
/// assert_eq!((opening.size, opening.answer.unwrap().record_count()), (92, 3));
///
/// let opening = Opening::of_file(&mut Cursor::new(b"CDF\x03"), Versions::BOTH).unwrap();
/// assert_eq!((opening.prefix, opening.answer.unwrap_err().number), (b"CDF\x03".to_vec(), 4));
/// ```
#[derive(Debug, Clone)]
pub struct Opening {
    /// The file's first bytes: all of the header where it is accepted, and at least up to the place where it is refused. Where a
    /// file ends inside the values of an attribute, which its count of them puts far behind the end, those are left out.
    pub prefix: Vec<u8>,
    /// The whole file's size.
    pub size: u64,
    /// The header, or why it is refused; never by 1.
    pub answer: Result<Header, Refusal>,
}

impl Opening {
    /// Of something that can be sought: the header and the size are all that is read.
    pub fn of_file<R: Read + Seek>(file: &mut R, versions: Versions) -> io::Result<Opening> {
        let mut source = Source::new(file)?;
        let (prefix, answer) = source.ask_prefix(|prefix, size| Header::read(prefix, size, versions))?;
        Ok(Opening { prefix, size: source.size(), answer })
    }

    /// Of something that can only be read on, as a pipe: it is read to its end, for its size, and no more is kept than the
    /// header needs, or claims to.
    ///
    /// ```
    /// use fungalcove::{example, Opening, Versions};
    ///
    /// let opening = Opening::of_stream(&mut &example::X[..], Versions::BOTH).unwrap();
    /// assert_eq!((opening.size, opening.answer.unwrap().record_count()), (92, 3));
    /// ```
    pub fn of_stream<R: Read>(stream: &mut R, versions: Versions) -> io::Result<Opening> {
        let mut prefix = Vec::new();
        let (mut wanted, mut ended) = (BLOCK, false);
        while !ended && unfinished(&Header::read(&prefix, LARGEST, versions)) {
            ended = !extend(stream, &mut prefix, wanted)?;
            wanted = wanted.saturating_mul(2);
        }
        let size = prefix.len() as u64 + io::copy(stream, &mut io::sink())?;
        let answer = Header::read(&prefix, size, versions);
        Ok(Opening { prefix, size, answer })
    }
}

fn unfinished(answer: &Result<Header, Refusal>) -> bool {
    matches!(answer, Err(Refusal { number: 1, .. }))
}

/// More of the stream's first bytes: up to `wanted` in all, if there are so many. The answer is whether there were.
fn extend<R: Read>(stream: &mut R, prefix: &mut Vec<u8>, wanted: u64) -> io::Result<bool> {
    let mut more = stream.by_ref().take(wanted - prefix.len() as u64);
    let mut block = Vec::new();
    grow(&mut block, BLOCK)?;
    loop {
        match more.read(&mut block) {
            Ok(0) => return Ok(prefix.len() as u64 == wanted),
            Ok(n) => {
                prefix.try_reserve(n).map_err(|_| io::Error::from(io::ErrorKind::OutOfMemory))?;
                prefix.extend_from_slice(&block[..n]);
            }
            Err(error) if error.kind() == io::ErrorKind::Interrupted => (),
            Err(error) => return Err(error),
        }
    }
}
