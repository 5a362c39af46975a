//! Answers about files, for comparisons: a line `HEX [SIZE]` in, a line out, in the form that oracle/README.md describes.
//!
//! HEX are a file's first bytes, SIZE pretends a larger file; then no values are read. A refusal is `refused NUMBER PLACE`.
//! `--reader` reads through a `FileReader` instead of a window. `--converted` adds `written=HEADER` where the file is accepted,
//! and in any case `widen=` and `narrow=`, each followed by `NUMBER:PLACE:LENGTH:SIZE:FROM:HEADER`. `--guest32` answers what a 32-bit build of
//! netcdf3 makes of an accepted file in place of its fields: `accepted records=N foreign=RECORD cut=VARIABLE`, `-` for none, or its error in place of N.

use fungalcove::{
    narrow, widen, Attribute, Converted, FileReader, Header, Refusal, Values, Variable, Versions, Window,
};
use std::io::{self, BufRead, Cursor, Write};

/// How many records of each variable are read.
const RECORDS: u64 = 16;

/// Where values come from.
enum Source<'a> {
    Nowhere,
    Window(Window<'a>),
    File(FileReader<Cursor<&'a [u8]>>),
}

impl<'a> Source<'a> {
    /// The file is one that was accepted.
    fn of(file: &'a [u8], through_reader: bool) -> Source<'a> {
        if through_reader {
            Source::File(FileReader::new(Cursor::new(file)).expect("the same answer of a reader"))
        } else {
            Source::Window(Window::whole(file))
        }
    }

    fn whole(&mut self, variable: &Variable<'_>) -> Option<Values> {
        match self {
            Source::Nowhere => None,
            Source::Window(window) => variable.read_values(*window).ok(),
            Source::File(file) => file.read_var(variable.name()).ok(),
        }
    }

    fn record(&mut self, variable: &Variable<'_>, record: u64) -> Option<Values> {
        match self {
            Source::Nowhere => None,
            Source::Window(window) => variable.read_record_values(*window, record).ok(),
            Source::File(file) => file.read_record(variable.name(), record).ok(),
        }
    }
}

fn hex(bytes: &[u8]) -> String {
    bytes.iter().map(|byte| format!("{:02x}", byte)).collect()
}

fn unhex(text: &str) -> Vec<u8> {
    let digit = |c: u8| char::from(c).to_digit(16).expect("a hex digit") as u8;
    text.as_bytes().chunks(2).map(|pair| digit(pair[0]) * 16 + digit(pair[1])).collect()
}

/// Values as big-endian bytes, bits kept.
fn bits(values: &Values) -> String {
    match values {
        Values::Byte(values) => values.iter().map(|value| hex(&value.to_be_bytes())).collect(),
        Values::Char(values) => hex(values),
        Values::Short(values) => values.iter().map(|value| hex(&value.to_be_bytes())).collect(),
        Values::Int(values) => values.iter().map(|value| hex(&value.to_be_bytes())).collect(),
        Values::Float(values) => values.iter().map(|value| hex(&value.to_bits().to_be_bytes())).collect(),
        Values::Double(values) => values.iter().map(|value| hex(&value.to_bits().to_be_bytes())).collect(),
    }
}

fn read(values: Option<Values>) -> String {
    values.map_or("-".to_string(), |values| bits(&values))
}

fn attribute(attribute: Attribute<'_>) -> String {
    format!("{}:{}:{}", hex(attribute.name().as_bytes()), attribute.data_type().code(), bits(&attribute.values()))
}

fn described(variable: &Variable<'_>) -> String {
    let ids: Vec<String> = variable.dimensions().map(|dimension| dimension.number().to_string()).collect();
    let vsize = variable.vsize().map_or("open".to_string(), |vsize| vsize.to_string());
    let (name, code) = (hex(variable.name().as_bytes()), variable.data_type().code());
    format!("{}:{}:{}:{}:{}", name, ids.join(","), code, vsize, variable.begin())
}

fn accepted(header: &Header, mut source: Source<'_>) -> String {
    let mut fields = vec!["accepted".to_string()];
    fields.push(format!("records={}", header.record_count()));
    fields.push(format!("version={}", header.version().number()));
    for dimension in header.dimensions() {
        fields.push(format!("dim={}:{}", hex(dimension.name().as_bytes()), dimension.length().unwrap_or(0)));
    }
    fields.extend(header.attributes().map(|row| format!("attr={}", attribute(row))));
    for variable in header.variables() {
        fields.push(format!("var={}", described(&variable)));
        fields.extend(variable.attributes().map(|row| format!("vattr={}", attribute(row))));
        if !matches!(source, Source::Nowhere) {
            fields.extend(values(header, &variable, &mut source));
        }
    }
    fields.join(" ")
}

fn values(header: &Header, variable: &Variable<'_>, source: &mut Source<'_>) -> Vec<String> {
    let limited = header.unlimited_dimension().is_none();
    let records = if variable.is_record() { header.record_count().min(RECORDS) } else { u64::from(limited) };
    let mut fields = vec![format!("whole={}", read(source.whole(variable)))];
    fields.extend((0..records).map(|record| format!("record={}", read(source.record(variable, record)))));
    fields
}

fn converted(answer: Result<Converted, Refusal>) -> String {
    match answer {
        Ok(new) => format!("0:0:{}:{}:{}:{}", new.header.len(), new.size, new.from, hex(&new.header)),
        Err(refusal) => format!("{}:{}:0:0:0:", refusal.number, refusal.place.unwrap_or(0)),
    }
}

fn in_guest(header: &Header) -> String {
    let told = |number: Option<u64>| number.map_or("-".to_string(), |number| number.to_string());
    let guest = header.guest32();
    let records = guest.records.map_or_else(|error| error.to_string(), |records| records.to_string());
    let cut = told(guest.first_cut.map(|variable| variable as u64));
    format!("accepted records={} foreign={} cut={}", records, told(guest.first_foreign), cut)
}

fn answer(line: &str, asked: &Asked) -> String {
    let mut fields = line.split(' ');
    let bytes = unhex(fields.next().unwrap_or(""));
    let pretended: Option<u64> = fields.next().map(|size| size.parse().expect("a size"));
    let size = pretended.unwrap_or(bytes.len() as u64);
    let header = Header::read(&bytes, size, Versions::BOTH);
    let mut out = match &header {
        Err(refusal) => format!("refused {} {}", refusal.number, refusal.place.unwrap_or(0)),
        Ok(header) if asked.guest32 => in_guest(header),
        Ok(header) if pretended.is_some() => accepted(header, Source::Nowhere),
        Ok(header) => accepted(header, Source::of(&bytes, asked.through_reader)),
    };
    if asked.conversions {
        out += &header.map_or(String::new(), |header| format!(" written={}", hex(&header.write())));
        out += &format!(" widen={} narrow={}", converted(widen(&bytes, size)), converted(narrow(&bytes, size)));
    }
    out
}

/// What the command line asks for.
struct Asked {
    through_reader: bool,
    conversions: bool,
    guest32: bool,
}

fn main() -> io::Result<()> {
    let flag = |flag: &str| std::env::args().any(|argument| argument == flag);
    let asked =
        Asked { through_reader: flag("--reader"), conversions: flag("--converted"), guest32: flag("--guest32") };
    let mut out = io::BufWriter::new(io::stdout().lock());
    for line in io::stdin().lock().lines() {
        writeln!(out, "{}", answer(&line?, &asked))?;
    }
    out.flush()
}
