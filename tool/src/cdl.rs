//! Headers as CDL, byte for byte what `ncdump -h` prints of files that `ncgen` makes.
//!
//! Of other files ncdump leaves out the global attribute `_NCProperties`, takes a count that is left open for 4294967295, and
//! stumbles over some names. Here is shown what the file has.

mod name;
mod number;
mod text;

pub use text::write_escaped;

use fungalcove::{Attribute, Header, Values, Variable};
use std::io::{self, Write};

/// Floats and doubles of attributes are shown with so many digits.
const FLOAT_DIGITS: usize = 7;
const DOUBLE_DIGITS: usize = 15;

/// `name` is the data set's, as a text or, since file names need not be UTF-8, as bytes.
pub fn write_header(out: &mut impl Write, name: impl AsRef<[u8]>, header: &Header) -> io::Result<()> {
    out.write_all(b"netcdf ")?;
    name::write(out, name.as_ref())?;
    out.write_all(b" {\n")?;
    write_dimensions(out, header)?;
    if header.variables().len() > 0 {
        out.write_all(b"variables:\n")?;
    }
    for variable in header.variables() {
        write_variable(out, &variable)?;
    }
    if header.attributes().len() > 0 {
        out.write_all(b"\n// global attributes:\n")?;
    }
    for attribute in header.attributes() {
        write_attribute(out, "", &attribute)?;
    }
    out.write_all(b"}\n")
}

fn write_dimensions(out: &mut impl Write, header: &Header) -> io::Result<()> {
    if header.dimensions().len() > 0 {
        out.write_all(b"dimensions:\n")?;
    }
    for dimension in header.dimensions() {
        out.write_all(b"\t")?;
        name::write(out, dimension.name().as_bytes())?;
        match dimension.length() {
            Some(length) => writeln!(out, " = {} ;", length)?,
            None => writeln!(out, " = UNLIMITED ; // ({} currently)", header.record_count())?,
        }
    }
    Ok(())
}

fn write_variable(out: &mut impl Write, variable: &Variable) -> io::Result<()> {
    write!(out, "\t{} ", variable.data_type())?;
    name::write(out, variable.name().as_bytes())?;
    let mut before = "(";
    for dimension in variable.dimensions() {
        out.write_all(before.as_bytes())?;
        name::write(out, dimension.name().as_bytes())?;
        before = ", ";
    }
    let after = if variable.dimensions().len() > 0 { ")" } else { "" };
    writeln!(out, "{} ;", after)?;
    for attribute in variable.attributes() {
        write_attribute(out, variable.name(), &attribute)?;
    }
    Ok(())
}

/// An attribute of the variable `owner`; a global one has an empty owner.
fn write_attribute(out: &mut impl Write, owner: &str, attribute: &Attribute) -> io::Result<()> {
    out.write_all(b"\t\t")?;
    name::write(out, owner.as_bytes())?;
    out.write_all(b":")?;
    name::write(out, attribute.name().as_bytes())?;
    out.write_all(b" = ")?;
    match attribute.values() {
        // CDL has no empty list of numbers: without values every type is shown as an empty text
        _ if attribute.is_empty() => text::write(out, b"")?,
        Values::Char(text) => text::write(out, &text)?,
        Values::Byte(values) => write_list(out, &values, |value| format!("{}b", value))?,
        Values::Short(values) => write_list(out, &values, |value| format!("{}s", value))?,
        Values::Int(values) => write_list(out, &values, |value| value.to_string())?,
        Values::Float(values) => write_list(out, &values, |&value| number::general(value.into(), FLOAT_DIGITS) + "f")?,
        Values::Double(values) => write_list(out, &values, |&value| number::general(value, DOUBLE_DIGITS))?,
    }
    out.write_all(b" ;\n")
}

fn write_list<T>(out: &mut impl Write, values: &[T], shown: impl Fn(&T) -> String) -> io::Result<()> {
    for (at, value) in values.iter().enumerate() {
        let before = if at > 0 { ", " } else { "" };
        write!(out, "{}{}", before, shown(value))?;
    }
    Ok(())
}
