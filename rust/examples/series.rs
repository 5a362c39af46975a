//! series FILE [VARIABLE]: what a NetCDF-3 file holds, and the first values of a variable (of the last one, if none is named).

use fungalcove::{Dimension, Error, FileReader, Header, Variable};
use std::fs::File;
use std::process::ExitCode;

/// How many values are shown.
const SHOWN: u64 = 8;

fn main() -> ExitCode {
    let arguments: Vec<String> = std::env::args().skip(1).collect();
    let (path, variable) = match arguments.as_slice() {
        [path] => (path, None),
        [path, variable] => (path, Some(variable.as_str())),
        _ => {
            eprintln!("series FILE [VARIABLE]");
            return ExitCode::from(2);
        }
    };
    match show(path, variable) {
        Ok(()) => ExitCode::SUCCESS,
        Err(error) => {
            eprintln!("{}: {}", path, error);
            ExitCode::FAILURE
        }
    }
}

fn show(path: &str, variable: Option<&str>) -> Result<(), Error> {
    let mut file = FileReader::open(path)?;
    show_header(file.header());
    let last = file.header().variables().last().map(|variable| variable.name().to_string());
    match variable.or(last.as_deref()) {
        Some(name) => show_values(&mut file, name),
        None => Ok(()),
    }
}

fn show_header(header: &Header) {
    println!("version: {}", header.version());
    println!("records: {}", header.record_count());
    for attribute in header.attributes() {
        println!("attribute: {} = {}", attribute.name(), attribute.as_text().unwrap_or("(numbers)"));
    }
    for variable in header.variables() {
        println!("variable: {}", described(&variable));
    }
}

/// As in `float height(place = 2), m`.
fn described(variable: &Variable<'_>) -> String {
    let length = |dimension: Dimension<'_>| format!("{} = {}", dimension.name(), dimension.len());
    let lengths: Vec<String> = variable.dimensions().map(length).collect();
    let units = variable.attribute("units").and_then(|units| units.as_text());
    let units = units.map_or(String::new(), |units| format!(", {}", units));
    format!("{} {}({}){}", variable.data_type(), variable.name(), lengths.join(", "), units)
}

/// The values are read one by one, so that of a large variable only a few bytes are read.
fn show_values(file: &mut FileReader<File>, name: &str) -> Result<(), Error> {
    let variable = file.header().variable(name)?;
    let (values, a_record) = (variable.len(), variable.record_len());
    for number in 0..values.min(SHOWN) {
        let (record, element) = (number / a_record, number % a_record);
        println!("{} record {} element {}: {}", name, record, element, file.read_element(name, record, element)?);
    }
    if values > SHOWN {
        println!("{}: {} more", name, values - SHOWN);
    }
    Ok(())
}
