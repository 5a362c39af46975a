//! A file's bytes, of which a piece is held.

use fungalcove::{Refusal, Value, Variable, Window};
use std::fs::File;
use std::io::{self, Read, Seek, SeekFrom};

/// How much is fetched of a place at first.
const LITTLE: u64 = 1 << 12;

pub struct Held<'f> {
    file: &'f File,
    /// The file's size.
    size: u64,
    piece: Vec<u8>,
    start: u64,
}

impl<'f> Held<'f> {
    pub fn new(file: &'f File, size: u64) -> Held<'f> {
        Held { file, size, piece: Vec::new(), start: 0 }
    }

    /// Holds the bytes from a place on, `most` of them or those that there are.
    pub fn fetch(&mut self, at: u64, most: u64) -> io::Result<()> {
        self.piece.clear();
        self.start = at;
        // behind the file's end there is nothing to seek: a place there may be more than the system knows
        if at < self.size {
            let mut file = self.file;
            file.seek(SeekFrom::Start(at))?;
            let wanted = most.min(self.size - at);
            if (file.take(wanted).read_to_end(&mut self.piece)? as u64) < wanted {
                return Err(io::ErrorKind::UnexpectedEof.into());
            }
        }
        Ok(())
    }

    /// Bytes from a place on, as many as are held; where none are, up to `most` are fetched, the more of them the longer one piece
    /// has followed the other. None where the file ends before it.
    pub fn from(&mut self, at: u64, most: u64) -> io::Result<&[u8]> {
        let end = self.start + self.piece.len() as u64;
        if !(self.start..end).contains(&at) {
            let follows = (end..end + LITTLE).contains(&at);
            let more = if follows { LITTLE.max(2 * self.piece.len() as u64) } else { LITTLE };
            self.fetch(at, more.min(most))?;
        }
        Ok(&self.piece[(at - self.start) as usize..])
    }

    /// An element, as the proved read reads it out of what is held.
    pub fn element(&self, variable: &Variable<'_>, record: u64, element: u64) -> Result<Value, Refusal> {
        variable.element(Window { bytes: &self.piece, start: self.start }, record, element)
    }
}
