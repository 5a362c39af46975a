//! A walk through a header by the format's grammar: which rule derives which bytes.
//!
//! The walk judges nothing. Up to where it goes the proved reader has accepted every byte, so that it only has to follow; where the
//! reader refused, the next rule is the one that is not met.

use crate::brief::{self, big_endian, counted, padding};
use crate::explain::said::{Dimension, Named, Said, Variable};
use fungalcove::Version;
use std::ops::Range;

/// A rule, the bytes that it derives, and what they say.
pub struct Line {
    /// How deep the grammar has nested.
    pub depth: usize,
    pub bytes: Range<usize>,
    pub rule: &'static str,
    pub says: String,
}

/// The rule that stands where the walk ended, the one that it is part of, and the bytes that it would have taken.
#[derive(Debug, Clone)]
pub struct Unmet {
    pub rule: &'static str,
    pub part_of: &'static str,
    pub bytes: Range<usize>,
}

/// What a walk found.
pub struct Derivation {
    pub lines: Vec<Line>,
    pub said: Said,
    /// `None` where the header was derived to its end.
    pub unmet: Option<Unmet>,
}

/// How many bytes a word of the header has.
const WORD: usize = 4;
/// The count word of a file that leaves it open, and a vsize that has no number.
pub const OPEN: u32 = 0xFFFF_FFFF;

/// Walks the first bytes of a file up to `stop`, where it ends inside a rule whose bytes need not all be there. `records` are those
/// that were counted, where the file is accepted.
pub fn walk(bytes: &[u8], stop: usize, records: Option<u64>) -> Derivation {
    let mut walk = Walk { bytes, stop, at: 0, within: Vec::new(), lines: Vec::new(), said: Said::default() };
    let unmet = walk.header(records).err();
    Derivation { lines: walk.lines, said: walk.said, unmet }
}

/// What a step gives, or the rule that is not met.
type Step<T> = Result<T, Unmet>;

struct Walk<'a> {
    bytes: &'a [u8],
    stop: usize,
    at: usize,
    /// The rules that the walk is within.
    within: Vec<&'static str>,
    lines: Vec<Line>,
    said: Said,
}

impl<'a> Walk<'a> {
    /// The next `n` bytes, derived by a rule that has no rules below it. No line where there are none.
    fn leaf(&mut self, rule: &'static str, n: usize, says: impl FnOnce(&[u8]) -> String) -> Step<Range<usize>> {
        let (first, end) = (self.at, self.at.saturating_add(n));
        if end > self.stop {
            return Err(self.unmet(rule, first..end));
        }
        if n > 0 {
            let says = says(&self.bytes[first..end]);
            self.line(rule, first..end, says);
            self.at = end;
        }
        Ok(first..end)
    }

    /// A rule whose bytes don't lie all before the end of the walk; those that do are its line.
    fn unmet(&mut self, rule: &'static str, bytes: Range<usize>) -> Unmet {
        let there = self.stop - bytes.start;
        if there > 0 {
            let says = format!("unfinished: {} of {} bytes are there", there, bytes.len());
            self.line(rule, bytes.start..self.stop, says);
            self.at = self.stop;
        }
        Unmet { rule, part_of: self.within.last().copied().unwrap_or(rule), bytes }
    }

    fn line(&mut self, rule: &'static str, bytes: Range<usize>, says: String) {
        self.lines.push(Line { depth: self.within.len(), bytes, rule, says });
    }

    /// A rule with rules below it.
    fn node<T>(&mut self, rule: &'static str, below: impl FnOnce(&mut Self) -> Step<T>) -> Step<T> {
        let line = self.lines.len();
        self.line(rule, self.at..self.at, String::new());
        self.within.push(rule);
        let got = below(self);
        self.within.pop();
        self.lines[line].bytes.end = self.at;
        got
    }

    fn word(&mut self, rule: &'static str, says: impl FnOnce(u32) -> String) -> Step<u32> {
        let at = self.leaf(rule, WORD, |bytes| says(big_endian(bytes) as u32))?;
        Ok(big_endian(&self.bytes[at]) as u32)
    }

    fn header(&mut self, records: Option<u64>) -> Step<()> {
        self.node("header", |walk| {
            walk.magic()?;
            walk.word("numrecs", |word| match (word, records) {
                (OPEN, Some(records)) => format!("STREAMING: left open; {} by the file's size", records),
                (OPEN, None) => "STREAMING: left open".to_string(),
                _ => word.to_string(),
            })?;
            walk.list("dim_list", "NC_DIMENSION", Walk::dim)?;
            walk.attributes("gatt_list")?;
            walk.list("var_list", "NC_VARIABLE", Walk::var)
        })
    }

    fn magic(&mut self) -> Step<()> {
        self.node("magic", |walk| {
            walk.leaf("'C' 'D' 'F'", 3, |_| String::new())?;
            let at = walk.leaf("VERSION", 1, |byte| version(byte[0]))?;
            walk.said.version = walk.bytes[at.start];
            Ok(())
        })
    }

    /// A list that is absent, or its tag, its number of items, and the items.
    fn list(&mut self, rule: &'static str, tag: &'static str, item: fn(&mut Self) -> Step<()>) -> Step<()> {
        self.node(rule, |walk| {
            let start = &walk.bytes[walk.at..walk.stop.min(walk.bytes.len())];
            if start.len() < WORD {
                return walk.leaf("ABSENT or tag", WORD, |_| String::new()).map(|_| ());
            }
            if start[..WORD] == [0; WORD] {
                return walk.leaf("ABSENT", 2 * WORD, |_| "none".to_string()).map(|_| ());
            }
            walk.leaf(tag, WORD, |_| String::new())?;
            let items = walk.word("nelems", |n| n.to_string())?;
            (0..items).try_for_each(|_| item(walk))
        })
    }

    fn attributes(&mut self, rule: &'static str) -> Step<()> {
        self.said.attributes.push(Vec::new());
        self.list(rule, "NC_ATTRIBUTE", Walk::attr)
    }

    /// An item of a list, and what is said of every item: its bytes, and those of its name.
    fn item<T>(&mut self, rule: &'static str, rest: impl FnOnce(&mut Self) -> Step<T>) -> Step<(Named, T)> {
        let first = self.at;
        let (name, rest) = self.node(rule, |walk| Ok((walk.name()?, rest(walk)?)))?;
        Ok((Named { bytes: first..self.at, name }, rest))
    }

    fn name(&mut self) -> Step<Range<usize>> {
        self.node("name", |walk| {
            let chars = walk.word("nelems", |n| n.to_string())? as usize;
            walk.node("namestring", |walk| {
                let at = walk.leaf("ID1 [IDN ...]", chars, brief::text)?;
                walk.padding(chars)?;
                Ok(at)
            })
        })
    }

    fn padding(&mut self, after: usize) -> Step<()> {
        let zeros = padding(after as u128) as usize;
        self.leaf("padding", zeros, |zeros| counted(zeros.len() as u64, "zero byte")).map(|_| ())
    }

    fn dim(&mut self) -> Step<()> {
        let (named, length) = self.item("dim", |walk| {
            walk.word("dim_length", |length| match length {
                0 => "0, the record dimension".to_string(),
                _ => length.to_string(),
            })
        })?;
        self.said.dimensions.push(Dimension { named, length });
        Ok(())
    }

    fn attr(&mut self) -> Step<()> {
        let (named, ()) = self.item("attr", |walk| {
            let code = walk.nc_type()?;
            let elements = walk.word("nelems", |n| n.to_string())? as usize;
            walk.values(code, elements)
        })?;
        self.said.attributes.last_mut().expect("a list that was begun").push(named);
        Ok(())
    }

    fn nc_type(&mut self) -> Step<u32> {
        self.word("nc_type", |code| brief::TYPES.get(code as usize).map_or(code.to_string(), |t| t.tag.to_string()))
    }

    fn values(&mut self, code: u32, elements: usize) -> Step<()> {
        let kind = &brief::TYPES[(code as usize).min(brief::TYPES.len() - 1)];
        let n = elements.saturating_mul(kind.size);
        self.node(kind.list, |walk| {
            walk.leaf(kind.items, n, |bytes| brief::values(code, bytes))?;
            walk.padding(n)
        })
    }

    fn var(&mut self) -> Step<()> {
        let (named, (ids, code, begin)) = self.item("var", |walk| {
            let rank = walk.word("nelems", |n| n.to_string())?;
            let ids: Vec<u32> = (0..rank).map(|_| walk.dimid()).collect::<Step<_>>()?;
            walk.attributes("vatt_list")?;
            let code = walk.nc_type()?;
            walk.word("vsize", |vsize| if vsize == OPEN { "indeterminate".to_string() } else { vsize.to_string() })?;
            let width = if walk.said.version == Version::Offset64.number() { 2 * WORD } else { WORD };
            let begin = walk.leaf("begin", width, |bytes| signed(bytes).to_string())?;
            Ok((ids, code, begin))
        })?;
        let (begins, begin_bytes) = (signed(&self.bytes[begin.clone()]), begin);
        self.said.variables.push(Variable { named, ids, code, begin: begins, begin_bytes });
        Ok(())
    }

    fn dimid(&mut self) -> Step<u32> {
        let names: Vec<String> =
            self.said.dimensions.iter().map(|d| brief::text(&self.bytes[d.named.name.clone()])).collect();
        self.word("dimid", |id| match names.get(id as usize) {
            Some(name) => format!("{}: {}", id, name),
            None => id.to_string(),
        })
    }
}

fn version(byte: u8) -> String {
    match byte {
        1 => format!("1: {}", Version::Classic),
        2 => format!("2: {}", Version::Offset64),
        _ => byte.to_string(),
    }
}

/// A number of 4 or 8 bytes in two's complement.
fn signed(bytes: &[u8]) -> i64 {
    let unused = 64 - 8 * bytes.len() as u32;
    (big_endian(bytes) << unused) as i64 >> unused
}
