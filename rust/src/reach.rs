//! How long a header is at least, whose first bytes are at hand.

use crate::{DataType, Version};

/// Where the step of the format's grammar ends that a prefix breaks off in: every header that starts so is at least so long.
///
/// The prefix is one that the proved reader wants more of, so nothing is judged here.
pub(crate) fn reach(prefix: &[u8]) -> u64 {
    let mut walk = Walk { prefix, at: 0 };
    match walk.header() {
        Err(BrokenOff { end }) => end,
        Ok(()) => walk.at,
    }
}

/// The prefix ends inside a step that ends here.
struct BrokenOff {
    end: u64,
}

type Step<T> = Result<T, BrokenOff>;

struct Walk<'a> {
    prefix: &'a [u8],
    at: u64,
}

impl Walk<'_> {
    fn skip(&mut self, bytes: u64) -> Step<()> {
        let end = self.at.saturating_add(bytes);
        if end > self.prefix.len() as u64 {
            return Err(BrokenOff { end });
        }
        self.at = end;
        Ok(())
    }

    /// A big-endian number.
    fn number(&mut self, bytes: u64) -> Step<u64> {
        let start = self.at as usize;
        self.skip(bytes)?;
        let digits = &self.prefix[start..self.at as usize];
        Ok(digits.iter().fold(0, |number, digit| number << 8 | u64::from(*digit)))
    }

    fn word(&mut self) -> Step<u64> {
        self.number(4)
    }

    /// Bytes, then zeros up to a multiple of 4.
    fn padded(&mut self, bytes: u64) -> Step<()> {
        self.skip(bytes)?;
        self.skip((4 - bytes % 4) % 4)
    }

    fn header(&mut self) -> Step<()> {
        self.skip(3)?;
        let begin_bytes = if self.number(1)? == u64::from(Version::Classic.number()) { 4 } else { 8 };
        self.skip(4)?;
        self.list(|walk| walk.named(|walk| walk.skip(4)))?;
        self.list(Walk::attribute)?;
        self.list(|walk| walk.variable(begin_bytes))
    }

    /// A tag and a number of items; without items the two take as many bytes.
    fn list(&mut self, item: impl Fn(&mut Self) -> Step<()>) -> Step<()> {
        self.skip(4)?;
        let items = self.word()?;
        (0..items).try_for_each(|_| item(self))
    }

    fn named(&mut self, rest: impl FnOnce(&mut Self) -> Step<()>) -> Step<()> {
        let bytes = self.word()?;
        self.padded(bytes)?;
        rest(self)
    }

    fn attribute(&mut self) -> Step<()> {
        self.named(|walk| {
            let size = DataType::of_word(walk.word()?).size();
            let elements = walk.word()?;
            walk.padded(elements * size)
        })
    }

    /// Name, ids, attributes, type, vsize and begin.
    fn variable(&mut self, begin_bytes: u64) -> Step<()> {
        self.named(|walk| {
            let ids = walk.word()?;
            walk.skip(4 * ids)?;
            walk.list(Walk::attribute)?;
            walk.skip(4)?;
            walk.skip(4)?;
            walk.skip(begin_bytes)
        })
    }
}

#[cfg(test)]
mod tests {
    use super::reach;
    use crate::{example, widen, Header, Versions};

    /// Whether the reader wants more than these first bytes of a large file.
    fn unfinished(prefix: &[u8]) -> bool {
        matches!(Header::read(prefix, 1 << 40, Versions::BOTH), Err(refusal) if refusal.number == 1)
    }

    /// Cut anywhere, a header is unfinished up to the byte before its reach, and reaches no further than it is long.
    #[test]
    fn every_cut() {
        let size = example::STATION.len() as u64;
        let classic = Header::read(example::STATION, size, Versions::BOTH).unwrap().bytes().to_vec();
        let wide = widen(&classic, size).unwrap().header;
        for header in [&classic, &wide] {
            for cut in 0..header.len() {
                let end = reach(&header[..cut]) as usize;
                assert!(cut < end && end <= header.len());
                assert!(unfinished(&header[..end - 1]));
            }
            assert_eq!(reach(header), header.len() as u64);
        }
    }
}
