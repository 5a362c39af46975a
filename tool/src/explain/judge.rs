//! Which item breaks a rule that is judged after the grammar: 11 to 15.
//!
//! That one is broken the proved reader has said; here the first item that breaks it is found, in the order of the file.

use crate::brief::{self, big_endian, counted, padding, TYPES};
use crate::explain::fault::Fault;
use crate::explain::said::{Named, Said, Variable};
use crate::explain::walk::OPEN;
use std::ops::Range;

/// 2^60 and 2^62, the limits of 12 and 15.
const LARGEST: u128 = 1 << 60;
const FURTHEST: u128 = 1 << 62;

/// The bytes of the count word.
const COUNT: Range<usize> = 4..8;

const NAMES: &str = "no name is empty or twice in its list";

/// 11: the model rules, of dimensions, global attributes, and each variable with its attributes.
pub fn model(file: &[u8], said: &Said) -> Option<Fault> {
    let dimensions = || dimension(file, said);
    let globals = || said.attributes.first().and_then(|list| names(file, list));
    let variables = || (0..said.variables.len()).find_map(|i| variable(file, said, i));
    dimensions().or_else(globals).or_else(variables)
}

/// What is wrong with the name of the i-th item of a list.
fn name<'a>(file: &[u8], list: impl Iterator<Item = &'a Named>, i: usize) -> Option<Fault> {
    let items: Vec<&Named> = list.take(i + 1).collect();
    let (item, before) = items.split_last()?;
    let bytes = &file[item.name.clone()];
    let shown = item.bytes.start..item.name.end;
    if bytes.is_empty() {
        let word = item.bytes.start..item.bytes.start + 4;
        return Some(Fault::new(
            NAMES,
            word.clone(),
            word,
            format!("the item at byte {} has no name", item.bytes.start),
        ));
    }
    let first = before.iter().find(|other| file[other.name.clone()] == *bytes)?;
    let why = format!("{} is already the name of the item at byte {}", brief::text(bytes), first.bytes.start);
    Some(Fault::new(NAMES, shown, item.name.clone(), why))
}

fn names(file: &[u8], list: &[Named]) -> Option<Fault> {
    (0..list.len()).find_map(|i| name(file, list.iter(), i))
}

fn dimension(file: &[u8], said: &Said) -> Option<Fault> {
    let named = || said.dimensions.iter().map(|dimension| &dimension.named);
    let unlimited = |i: usize| said.dimensions[i].length == 0;
    let second = |i: usize| {
        let first = (0..i).find(|before| unlimited(*before)).filter(|_| unlimited(i))?;
        let at = said.dimensions[i].named.bytes.clone();
        let why = format!("the dimension at byte {} is unlimited too", said.dimensions[first].named.bytes.start);
        Some(Fault::new("at most one dimension is unlimited", at.clone(), at.end - 4..at.end, why))
    };
    (0..said.dimensions.len()).find_map(|i| name(file, named(), i).or_else(|| second(i)))
}

/// A variable's own name and ids, then the names of its attributes.
fn variable(file: &[u8], said: &Said, i: usize) -> Option<Fault> {
    let named = said.variables.iter().map(|variable| &variable.named);
    name(file, named, i)
        .or_else(|| ids(said, &said.variables[i]))
        .or_else(|| said.attributes.get(i + 1).and_then(|list| names(file, list)))
}

fn ids(said: &Said, variable: &Variable) -> Option<Fault> {
    let all = id_bytes(variable);
    let word = |k: usize| all.start + 4 * k..all.start + 4 * k + 4;
    let count = said.dimensions.len();
    let ids = || variable.ids.iter().enumerate();
    if let Some((k, id)) = ids().find(|(_, id)| **id as usize >= count) {
        let why = format!("there is no dimension {}: the file has {}", id, count);
        return Some(Fault::new("every id is below the number of dimensions", all.clone(), word(k), why));
    }
    let (k, _) = ids().skip(1).find(|(_, id)| said.dimensions[**id as usize].length == 0)?;
    let why = format!("the unlimited dimension is number {} of this variable, counted from 0", k);
    Some(Fault::new("the unlimited dimension stands only first in a variable", all.clone(), word(k), why))
}

/// 12: a begin, a chunk, or the sum of the chunks of a record.
pub fn sizes(file: &[u8], said: &Said) -> Option<Fault> {
    let one = said.variables.iter().find_map(|variable| {
        if variable.begin < 0 || variable.begin as u128 > FURTHEST {
            let why = format!("{} begins at {}", named(file, variable), variable.begin);
            return Some(at("a begin is not negative and at most 2^62", variable.begin_bytes.clone(), why));
        }
        let why = format!("the lengths of {} make a chunk of more than 2^60 bytes", named(file, variable));
        let fault = at("a padded chunk has at most 2^60 bytes", id_bytes(variable), why);
        Some(fault).filter(|_| padded(said, variable) > LARGEST)
    });
    let sum = || {
        let why = format!("the records have {} bytes each", record_size(said));
        Some(at("the record size is at most 2^60", 0..0, why)).filter(|_| record_size(said) > LARGEST)
    };
    one.or_else(sum)
}

/// A fault of some bytes, all of which offend.
fn at(rule: &str, bytes: Range<usize>, why: String) -> Fault {
    Fault::new(rule, bytes.clone(), bytes, why)
}

/// 13 and 14: how the record count follows from the size.
pub fn count(said: &Said, size: u64) -> Option<Fault> {
    let (begin, step) = (first_begin(said)?, record_size(said));
    let rule = "numrecs left open: (size - smallest record begin) / record size";
    let why = match u128::from(size).checked_sub(begin) {
        None => format!("the size, {}, lies below the first record's begin, {}", size, begin),
        Some(bytes) => {
            let rest = counted((bytes % step) as u64, "byte");
            format!("({} - {}) / {} leaves a rest of {}", size, begin, step, rest)
        }
    };
    Some(at(rule, COUNT, why))
}

/// 15: the first variable that ends above 2^62.
pub fn ends(file: &[u8], said: &Said, size: u64) -> Option<Fault> {
    let step = record_size(said);
    let word = big_endian(&file[COUNT]);
    let opened = || first_begin(said).map_or(0, |begin| (u128::from(size) - begin) / step);
    let records = if word == u64::from(OPEN) { opened() } else { u128::from(word) };
    let end = |variable: &&Variable| match (is_record(said, variable), records) {
        (true, 0) => variable.begin as u128,
        (true, _) => {
            (variable.begin as u128).saturating_add((records - 1).saturating_mul(step)) + padded(said, variable)
        }
        (false, _) => variable.begin as u128 + padded(said, variable),
    };
    let variable = said.variables.iter().find(|variable| end(variable) > FURTHEST)?;
    let why = format!("{} ends at {}, with {} records", named(file, variable), end(&variable), records);
    let steps = if is_record(said, variable) { records.saturating_sub(1).saturating_mul(step) } else { 0 };
    // what takes it so far: its begin, the records before its last, or its lengths
    let parts = [
        (variable.begin as u128, variable.begin_bytes.clone()),
        (steps, COUNT),
        (padded(said, variable), id_bytes(variable)),
    ];
    let (_, bytes) = parts.into_iter().max_by_key(|(part, _)| *part)?;
    Some(at("no variable ends above 2^62", bytes, why))
}

/// The bytes of a variable's ids; they stand behind its name, the name's padding, and their number.
fn id_bytes(variable: &Variable) -> Range<usize> {
    let name = &variable.named.name;
    let first = name.end + padding(name.len() as u128) as usize + 4;
    first..first + 4 * variable.ids.len()
}

fn named(file: &[u8], variable: &Variable) -> String {
    brief::text(&file[variable.named.name.clone()])
}

fn is_record(said: &Said, variable: &Variable) -> bool {
    variable.ids.first().map_or(false, |id| said.dimensions[*id as usize].length == 0)
}

/// The bytes of a record, padded; so many that nothing has more, where they are too many to count.
fn padded(said: &Said, variable: &Variable) -> u128 {
    let lengths = variable.ids.iter().map(|id| u128::from(said.dimensions[*id as usize].length)).filter(|n| *n > 0);
    let bytes = lengths.fold(TYPES[variable.code as usize].size as u128, |bytes, length| bytes.saturating_mul(length));
    bytes.saturating_add(padding(bytes))
}

fn record_size(said: &Said) -> u128 {
    let records = said.variables.iter().filter(|variable| is_record(said, variable));
    records.fold(0, |size, variable| size.saturating_add(padded(said, variable)))
}

fn first_begin(said: &Said) -> Option<u128> {
    said.variables.iter().filter(|variable| is_record(said, variable)).map(|variable| variable.begin as u128).min()
}
