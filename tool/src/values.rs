//! A variable's values, streamed out of its file, and the form in which one of them is shown.

use crate::brief::one_line;
use crate::failure::{name_of, Failure};
use crate::held::Held;
use fungalcove::{Refusal, Value, Variable};
use std::fmt;
use std::fs::File;
use std::io;
use std::ops::Range;
use std::path::Path;

/// How many bytes of the file are held at a time.
const PIECE: u64 = 1 << 16;
/// Records whose starts lie no further apart are fetched together: to read what lies between costs less than to ask again.
const NEAR: u64 = 1 << 12;

/// A variable in its file.
pub struct Stored<'a> {
    path: &'a Path,
    variable: Variable<'a>,
    held: Held<'a>,
}

impl<'a> Stored<'a> {
    pub fn new(path: &'a Path, file: &'a File, size: u64, variable: Variable<'a>) -> Stored<'a> {
        Stored { path, variable, held: Held::new(file, size) }
    }

    pub fn variable(&self) -> &Variable<'a> {
        &self.variable
    }

    /// Hands the values of some records to `visit`, up to the end or to the first one that the file doesn't hold.
    pub fn each(&mut self, records: Range<u64>, mut visit: impl FnMut(Value) -> io::Result<()>) -> Result<(), Failure> {
        for record in records.clone() {
            for element in 0..self.variable.record_len() {
                let value = match self.held.element(&self.variable, record, element) {
                    Ok(value) => value,
                    Err(_) => self.fetched(record, element, records.end - 1)?,
                };
                visit(value)?;
            }
        }
        Ok(())
    }

    /// An element that is not held: a piece of the file is fetched from it on, but nothing beyond the record `last`, nor beyond
    /// its own record where the next one is far.
    fn fetched(&mut self, record: u64, element: u64, last: u64) -> Result<Value, Failure> {
        let bytes = |record: u64| self.variable.record_bytes(record).expect("a record below the count");
        let own = bytes(record);
        let near = record < last && bytes(record + 1).start - own.start <= NEAR;
        let end = if near { bytes(last).end } else { own.end };
        let start = own.start + element * self.variable.data_type().size();
        self.held.fetch(start, PIECE.min(end - start)).map_err(|error| Failure::of(self.path, error))?;
        self.held.element(&self.variable, record, element).map_err(|refusal| self.refused(record, element, refusal))
    }

    fn refused(&self, record: u64, element: u64, refusal: Refusal) -> Failure {
        let (path, name) = (name_of(self.path), one_line(self.variable.name()));
        Failure::Refused(format!("{}: {}, record {}, element {}", path, name, record, element), refusal)
    }
}

/// The number that a value is; a double holds those of every type.
pub fn as_f64(value: Value) -> f64 {
    match value {
        Value::Byte(value) => value.into(),
        Value::Char(value) => value.into(),
        Value::Short(value) => value.into(),
        Value::Int(value) => value.into(),
        Value::Float(value) => value.into(),
        Value::Double(value) => value,
    }
}

/// A number in the fewest digits that give it back, with an exponent where it is very large or small. What is no number or
/// infinite has the names that CDL has for it.
pub struct Shown(pub Value);

/// The same, with the bits of a NaN, of which there are many.
pub fn exact(value: Value) -> String {
    match value {
        Value::Float(float) if float.is_nan() => format!("NaN (bits {:08x})", float.to_bits()),
        Value::Double(double) if double.is_nan() => format!("NaN (bits {:016x})", double.to_bits()),
        _ => Shown(value).to_string(),
    }
}

impl fmt::Display for Shown {
    fn fmt(&self, f: &mut fmt::Formatter<'_>) -> fmt::Result {
        match as_f64(self.0) {
            infinite if infinite.is_infinite() => f.write_str(if infinite > 0.0 { "Infinity" } else { "-Infinity" }),
            _ => self.0.fmt(f),
        }
    }
}
