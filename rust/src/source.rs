//! Bytes out of something that is read and sought.

use crate::reach::reach;
use crate::Refusal;
use std::io::{self, Read, Seek, SeekFrom};

/// How many bytes are fetched first for a header; most headers are no longer.
const FIRST_PREFIX: u64 = 4096;

/// A file as it is read: its size, asked once, and what reads it.
pub(crate) struct Source<R> {
    reader: R,
    size: u64,
}

impl<R: Read + Seek> Source<R> {
    pub(crate) fn new(mut reader: R) -> io::Result<Source<R>> {
        let size = reader.seek(SeekFrom::End(0))?;
        Ok(Source { reader, size })
    }

    pub(crate) fn size(&self) -> u64 {
        self.size
    }

    pub(crate) fn into_reader(self) -> R {
        self.reader
    }

    /// The file's first bytes, and what `ask` answers to them and the size: more of them as long as it wants more and the file can
    /// have all of a header that starts so.
    pub(crate) fn ask_prefix<T>(
        &mut self,
        ask: impl Fn(&[u8], u64) -> Result<T, Refusal>,
    ) -> io::Result<(Vec<u8>, Result<T, Refusal>)> {
        let mut prefix = Vec::new();
        let mut wanted = FIRST_PREFIX;
        loop {
            self.extend(&mut prefix, wanted)?;
            match ask(&prefix, self.size) {
                Err(Refusal { number: 1, .. }) => {
                    let end = reach(&prefix);
                    // only an attribute's values reach so far; a shorter step is asked with all that there is
                    if end > self.size && end - prefix.len() as u64 > FIRST_PREFIX {
                        return Ok((prefix, Err(Refusal::cut_off(self.size))));
                    }
                    wanted = end.max(wanted.saturating_mul(2));
                }
                answer => return Ok((prefix, answer)),
            }
        }
    }

    /// More of the file's first bytes: up to `wanted` in all, if there are so many.
    fn extend(&mut self, prefix: &mut Vec<u8>, wanted: u64) -> io::Result<()> {
        let had = prefix.len();
        grow(prefix, self.size.min(wanted))?;
        self.reader.seek(SeekFrom::Start(had as u64))?;
        self.reader.read_exact(&mut prefix[had..])
    }

    /// The file's bytes from `start` on, `length` of them, or those that there are.
    pub(crate) fn fetch(&mut self, start: u64, length: u64, bytes: &mut Vec<u8>) -> io::Result<()> {
        bytes.clear();
        grow(bytes, length.min(self.size.saturating_sub(start)))?;
        if bytes.is_empty() {
            return Ok(());
        }
        self.reader.seek(SeekFrom::Start(start))?;
        self.reader.read_exact(bytes)
    }

    /// Copies what follows from `start` on, through a small buffer.
    pub(crate) fn copy_rest(&mut self, start: u64, writer: &mut impl io::Write) -> io::Result<()> {
        let rest = self.size - start;
        self.reader.seek(SeekFrom::Start(start))?;
        match io::copy(&mut self.reader.by_ref().take(rest), writer)? {
            copied if copied == rest => Ok(()),
            _ => Err(io::ErrorKind::UnexpectedEof.into()),
        }
    }
}

/// Zeros up to `length` values, or an error where there is no memory for them.
pub(crate) fn grow<T: Copy + Default>(values: &mut Vec<T>, length: u64) -> io::Result<()> {
    let no_memory = || io::Error::from(io::ErrorKind::OutOfMemory);
    let length = usize::try_from(length).map_err(|_| no_memory())?;
    let more = length.saturating_sub(values.len());
    values.try_reserve_exact(more).map_err(|_| no_memory())?;
    values.resize(values.len() + more, T::default());
    Ok(())
}
