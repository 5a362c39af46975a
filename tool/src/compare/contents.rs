//! What two headers say, item by item.

use crate::brief::{self, one_line};
use crate::values::exact;
use fungalcove::{Attribute, DataType, Dimension, Header, Variable};
use std::fmt::Display;

/// The first thing that two headers say otherwise: dimensions, global attributes, variables, the record count. Version, begins
/// and vsizes, and whether the count was left open, are no part of it.
pub fn difference(a: &Header, b: &Header) -> Option<String> {
    listed("dimension", a.dimensions().map(dimension), b.dimensions().map(dimension))
        .or_else(|| listed("global attribute", a.attributes().map(attribute), b.attributes().map(attribute)))
        .or_else(|| listed("variable", a.variables().map(shape), b.variables().map(shape)))
        .or_else(|| a.variables().zip(b.variables()).find_map(|(a, b)| attributes(&a, &b)))
        .or_else(|| differ("the record count", &a.record_count(), &b.record_count()))
}

fn attributes(a: &Variable<'_>, b: &Variable<'_>) -> Option<String> {
    let what = format!("variable {:?}, attribute", a.name());
    listed(&what, a.attributes().map(attribute), b.attributes().map(attribute))
}

/// The first item that differs, or that only one list has.
fn listed<T: PartialEq + Described>(
    what: &str,
    a: impl Iterator<Item = T>,
    b: impl Iterator<Item = T>,
) -> Option<String> {
    let (a, b): (Vec<T>, Vec<T>) = (a.collect(), b.collect());
    let at = (0..a.len().max(b.len())).find(|i| a.get(*i) != b.get(*i))?;
    let told = |item: Option<&T>| item.map_or("nothing".to_string(), T::described);
    let apart = match (a.get(at), b.get(at)) {
        (Some(a), Some(b)) => a.apart(b),
        (a, b) => format!("{} and {}", told(a), told(b)),
    };
    Some(format!("{} {}: {}", what, at, apart))
}

fn differ<T: PartialEq + Display>(what: &str, a: &T, b: &T) -> Option<String> {
    (a != b).then(|| format!("{}: {} and {}", what, a, b))
}

/// How an item is named where it differs.
trait Described {
    fn described(&self) -> String;

    /// How it differs from another one.
    fn apart(&self, other: &Self) -> String {
        format!("{} and {}", self.described(), other.described())
    }
}

/// A dimension's name and length; no length for the unlimited one.
#[derive(PartialEq)]
struct OfDimension<'h>(&'h str, Option<u64>);

fn dimension(dimension: Dimension<'_>) -> OfDimension<'_> {
    OfDimension(dimension.name(), dimension.length())
}

impl Described for OfDimension<'_> {
    fn described(&self) -> String {
        self.1.map_or(format!("{:?}, unlimited", self.0), |length| format!("{:?} of length {}", self.0, length))
    }
}

/// An attribute's name, type, and the bytes of its values.
#[derive(PartialEq)]
struct OfAttribute<'h>(&'h str, DataType, &'h [u8]);

fn attribute(attribute: Attribute<'_>) -> OfAttribute<'_> {
    OfAttribute(attribute.name(), attribute.data_type(), attribute.bytes())
}

impl Described for OfAttribute<'_> {
    fn described(&self) -> String {
        let OfAttribute(name, data_type, bytes) = self;
        format!("{:?}, {} {}", name, data_type, brief::values(data_type.code().into(), bytes))
    }

    /// Of long values of one name and type, those from the first on that differs.
    fn apart(&self, other: &Self) -> String {
        let (OfAttribute(name, data_type, a), OfAttribute(other_name, other_type, b)) = (self, other);
        if (name, data_type) != (other_name, other_type) {
            return format!("{} and {}", self.described(), other.described());
        }
        let alike = a.iter().zip(b.iter()).take_while(|(a, b)| a == b).count();
        let element = alike / data_type.size() as usize;
        let (a, b) = (value_at(*data_type, a, element), value_at(*data_type, b, element));
        format!("{:?}, {}, element {}: {} and {}", name, data_type, element, a, b)
    }
}

/// A value, or of characters all from one on.
fn value_at(data_type: DataType, bytes: &[u8], element: usize) -> String {
    let size = data_type.size() as usize;
    let rest = &bytes[element * size..];
    match data_type {
        DataType::Char => brief::text(rest),
        _ => rest
            .chunks(size)
            .next()
            .map_or("nothing".to_string(), |one| exact(brief::value(data_type.code().into(), one))),
    }
}

/// A variable's name, type, and the names of its dimensions.
#[derive(PartialEq)]
struct OfVariable<'h>(&'h str, DataType, Vec<&'h str>);

fn shape(variable: Variable<'_>) -> OfVariable<'_> {
    OfVariable(variable.name(), variable.data_type(), variable.dimensions().map(|dimension| dimension.name()).collect())
}

impl Described for OfVariable<'_> {
    fn described(&self) -> String {
        format!("{} {:?}({})", self.1, self.0, one_line(&self.2.join(", ")))
    }
}
