//! What is wrong with a header: the rule that is not met, and the bytes that offend.

use crate::brief::{big_endian, counted};
use crate::explain::judge;
use crate::explain::said::Said;
use crate::explain::walk::{Derivation, Unmet};
use fungalcove::{Opening, Refusal, Versions};
use std::ops::Range;

/// A rule that is not met, bytes of the file that it speaks of, those among them that offend, and why.
pub struct Fault {
    pub rule: String,
    pub bytes: Range<usize>,
    pub marked: Range<usize>,
    pub why: String,
}

impl Fault {
    pub fn new(rule: impl Into<String>, bytes: Range<usize>, marked: Range<usize>, why: impl Into<String>) -> Fault {
        Fault { rule: rule.into(), bytes, marked, why: why.into() }
    }
}

/// What a refusal is about. `None` where it is about no bytes of the header.
pub fn find(opening: &Opening, refusal: Refusal, derivation: &Derivation, versions: Versions) -> Option<Fault> {
    match (refusal.number, &derivation.unmet) {
        (2, Some(unmet)) => Some(unfinished(&opening.prefix, opening.size as usize, unmet)),
        (3..=10, Some(unmet)) => {
            Some(in_grammar(&opening.prefix, refusal.number, unmet, versions, attributes(&derivation.said)))
        }
        (number, None) => in_rules(&opening.prefix, number, &derivation.said, opening.size),
        _ => None,
    }
}

fn in_rules(file: &[u8], number: u8, said: &Said, size: u64) -> Option<Fault> {
    match number {
        11 => judge::model(file, said),
        12 => judge::sizes(file, said),
        13 | 14 => judge::count(said, size),
        15 => judge::ends(file, said, size),
        _ => None,
    }
}

/// How many attributes there are before the place where the walk ended.
fn attributes(said: &Said) -> usize {
    said.attributes.iter().map(Vec::len).sum()
}

fn in_grammar(file: &[u8], number: u8, unmet: &Unmet, versions: Versions, attributes: usize) -> Fault {
    let there = unmet.bytes.start..unmet.bytes.end.min(file.len());
    match number {
        3 => magic(file),
        4 => version(file, versions),
        5 => word(file, unmet),
        6 => not_utf8(file, there),
        7 => padding(file, there),
        8 => nc_type(file, there),
        9 => list_start(file, unmet),
        _ => capacity(file, unmet, attributes),
    }
}

/// The last bytes of the file are shown where they were read.
fn unfinished(file: &[u8], size: usize, unmet: &Unmet) -> Fault {
    let missing = counted(unmet.bytes.end.saturating_sub(size) as u64, "byte");
    let why = format!("the file ends at byte {}; at least {} would have to follow", size, missing);
    let read = file.len() == size;
    let (bytes, marked) = if read { (unmet.bytes.start..size, size..size + 1) } else { (0..0, 0..0) };
    Fault::new(unmet.rule, bytes, marked, why)
}

fn magic(file: &[u8]) -> Fault {
    let at = b"CDF".iter().zip(file).position(|(wanted, byte)| wanted != byte).unwrap_or(0);
    let why = format!("byte {} is not '{}'", at, char::from(b"CDF"[at]));
    Fault::new("magic = 'C' 'D' 'F' VERSION", 0..file.len().min(4), at..at + 1, why)
}

fn version(file: &[u8], versions: Versions) -> Fault {
    let admitted = match versions {
        Versions::CLASSIC => "1 alone is",
        Versions::OFFSET64 => "2 alone is",
        _ => "1 and 2 are",
    };
    let why = format!("version {} is not admitted; {}", file[3], admitted);
    Fault::new("VERSION = \\x01 | \\x02", 0..4, 3..4, why)
}

fn word(file: &[u8], unmet: &Unmet) -> Fault {
    let rule = match unmet.rule {
        "numrecs" | "vsize" => "NON_NEG, or \\xFF \\xFF \\xFF \\xFF",
        _ => "NON_NEG = <non-negative INT>",
    };
    let why = format!("{} is above 2147483647", big_endian(&file[unmet.bytes.clone()]));
    Fault::new(format!("{}: {}", unmet.rule, rule), unmet.bytes.clone(), unmet.bytes.clone(), why)
}

fn not_utf8(file: &[u8], name: Range<usize>) -> Fault {
    let (start, length) = match std::str::from_utf8(&file[name.clone()]) {
        Err(error) => (error.valid_up_to(), error.error_len().unwrap_or(name.len() - error.valid_up_to())),
        Ok(_) => (0, name.len()),
    };
    let marked = name.start + start..name.start + start + length;
    let why = format!("from byte {} on this is no character of UTF-8", marked.start);
    Fault::new("namestring: characters in UTF-8", name, marked, why)
}

fn padding(file: &[u8], zeros: Range<usize>) -> Fault {
    let at = zeros.clone().find(|at| file[*at] != 0).unwrap_or(zeros.start);
    let why = format!("byte {} is {:#04x}", at, file[at]);
    Fault::new("padding: zero bytes up to a multiple of 4", zeros, at..at + 1, why)
}

fn nc_type(file: &[u8], word: Range<usize>) -> Fault {
    let why = format!("{} is the code of no type", big_endian(&file[word.clone()]));
    Fault::new("nc_type = NC_BYTE | .. | NC_DOUBLE, 1 to 6", word.clone(), word, why)
}

/// The first byte that neither eight zeros nor the tag have.
fn list_start(file: &[u8], unmet: &Unmet) -> Fault {
    let tag = match unmet.part_of {
        "dim_list" => 0x0A,
        "var_list" => 0x0B,
        _ => 0x0C,
    };
    let start = &file[unmet.bytes.start..file.len().min(unmet.bytes.start + 8)];
    let departs = |form: &[u8]| form.iter().zip(start).position(|(wanted, byte)| wanted != byte).unwrap_or(start.len());
    let at = unmet.bytes.start + departs(&[0; 8]).max(departs(&[0, 0, 0, tag]));
    let rule =
        format!("{} = ABSENT, eight zero bytes | tag \\x00 \\x00 \\x00 \\x{:02X}, nelems ..", unmet.part_of, tag);
    let why = format!("from byte {} on it is neither", at);
    Fault::new(rule, unmet.bytes.start..unmet.bytes.start + start.len(), at..at + 1, why)
}

fn capacity(file: &[u8], unmet: &Unmet, attributes: usize) -> Fault {
    let count = big_endian(&file[unmet.bytes.clone()]);
    let why = match unmet.part_of {
        "name" => format!("{}: a name has at most 256 bytes", count),
        "dim_list" => format!("{}: a file has at most 32 dimensions", count),
        "var_list" => format!("{}: a file has at most 64 variables", count),
        "var" => format!("{}: a variable has at most 8 dimensions", count),
        _ => format!("{} after {}: a file has at most 128 attributes, over all lists", count, attributes),
    };
    Fault::new("nelems, within the capacities", unmet.bytes.clone(), unmet.bytes.clone(), why)
}
