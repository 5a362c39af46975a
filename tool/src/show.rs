//! `fungal show`: a header as CDL, the values of a variable, or what they come to.

use crate::failure::{name_of, Failure, Status};
use crate::values::{Shown, Stored};
use crate::{cdl, input, lonely, stat};
use clap::ArgMatches;
use fungalcove::{DataType, Header, Opening, Refusal, Value, Variable, Versions};
use std::io::{self, BufWriter, Write};
use std::ops::Range;
use std::os::unix::ffi::OsStrExt;
use std::path::{Path, PathBuf};

pub fn run(asked: &ArgMatches) -> Result<Status, Failure> {
    let path = asked.get_one::<PathBuf>("file").expect("the command line has a file");
    let mut out = BufWriter::new(io::stdout().lock());
    let shown = match (asked.get_one::<String>("values"), asked.get_one::<String>("stat")) {
        (Some(wanted), _) => show_values(&mut out, path, wanted),
        (_, Some(name)) => show_stat(&mut out, path, name),
        _ => show_header(&mut out, path),
    };
    // what was printed before a refusal comes before it
    out.flush()?;
    shown.map(|()| Status::Good)
}

fn show_header(out: &mut impl Write, path: &Path) -> Result<(), Failure> {
    let header = accepted(path, input::open(path, Versions::BOTH)?)?;
    Ok(cdl::write_header(out, data_set_name(path), &header)?)
}

fn show_values(out: &mut impl Write, path: &Path, wanted: &str) -> Result<(), Failure> {
    let (opening, file) = input::open_sought(path)?;
    let size = opening.size;
    let header = accepted(path, opening)?;
    let (variable, records) = find(&header, path, wanted)?;
    lonely::caution(path, &header, &variable);
    print(out, Stored::new(path, &file, size, variable), records)
}

fn show_stat(out: &mut impl Write, path: &Path, name: &str) -> Result<(), Failure> {
    let (opening, file) = input::open_sought(path)?;
    let size = opening.size;
    let header = accepted(path, opening)?;
    let variable = named(&header, path, name)?;
    lonely::caution(path, &header, &variable);
    stat::print(out, Stored::new(path, &file, size, variable))
}

fn accepted(path: &Path, opening: Opening) -> Result<Header, Failure> {
    opening.answer.map_err(|refusal| Failure::of(path, refusal))
}

/// The name that ncdump gives a file's data set: the file's own without folders and without what follows its last dot. To
/// ncdump a backslash ends the name of a folder too.
fn data_set_name(path: &Path) -> &[u8] {
    let bytes = path.as_os_str().as_bytes();
    if path == Path::new(input::STDIN) {
        return b"stdin";
    }
    let own = bytes.rsplit(|byte| b"/\\".contains(byte)).next().unwrap_or(bytes);
    own.iter().rposition(|&byte| byte == b'.').map_or(own, |dot| &own[..dot])
}

/// The variable and the records that `NAME[:RECORD]` asks for. A name may hold a colon, so the whole text is tried first.
fn find<'h>(header: &'h Header, path: &Path, wanted: &str) -> Result<(Variable<'h>, Range<u64>), Failure> {
    let (name, record) = match wanted.rsplit_once(':') {
        Some((name, digits)) if header.variable(wanted).is_err() && is_number(digits) => (name, Some(digits)),
        _ => (wanted, None),
    };
    let variable = named(header, path, name)?;
    match record {
        None => Ok((variable, 0..variable.records())),
        Some(digits) => {
            // no file has as many records as make a number that is too large here
            let record = digits.parse().unwrap_or(u64::MAX);
            variable.record_bytes(record).map_err(|refusal| refused(path, wanted, refusal))?;
            Ok((variable, record..record + 1))
        }
    }
}

fn is_number(text: &str) -> bool {
    !text.is_empty() && text.bytes().all(|byte| byte.is_ascii_digit())
}

fn named<'h>(header: &'h Header, path: &Path, name: &str) -> Result<Variable<'h>, Failure> {
    header.variable(name).map_err(|refusal| refused(path, name, refusal))
}

fn refused(path: &Path, wanted: &str, refusal: Refusal) -> Failure {
    Failure::Refused(format!("{}: {}", name_of(path), wanted), refusal)
}

fn print(out: &mut impl Write, mut stored: Stored, records: Range<u64>) -> Result<(), Failure> {
    let mut rows = Rows::new(out, stored.variable());
    let ended = stored.each(records, |value| rows.push(value));
    rows.end()?;
    ended
}

/// Values in lines, one for each row of the last dimension: numbers with a blank between them, or characters as one text in
/// quotes, with the escapes of `cdl::write_escaped`.
struct Rows<'o, W> {
    out: &'o mut W,
    /// How many values a row has, and how many are there of the one at hand.
    length: u64,
    filled: u64,
    quote: &'static str,
    between: &'static str,
}

impl<'o, W: Write> Rows<'o, W> {
    fn new(out: &'o mut W, variable: &Variable) -> Rows<'o, W> {
        let last = variable.dimensions().last().filter(|dimension| !dimension.is_unlimited());
        let length = last.map_or(1, |dimension| dimension.len());
        let (quote, between) = if variable.data_type() == DataType::Char { ("\"", "") } else { ("", " ") };
        Rows { out, length, filled: 0, quote, between }
    }

    fn push(&mut self, value: Value) -> io::Result<()> {
        let before = if self.filled == 0 { self.quote } else { self.between };
        self.out.write_all(before.as_bytes())?;
        match value {
            Value::Char(byte) => cdl::write_escaped(self.out, byte)?,
            number => write!(self.out, "{}", Shown(number))?,
        }
        self.filled += 1;
        if self.filled == self.length {
            self.end()?;
        }
        Ok(())
    }

    /// Ends the row at hand, also where the file ended inside it.
    fn end(&mut self) -> io::Result<()> {
        if self.filled > 0 {
            writeln!(self.out, "{}", self.quote)?;
            self.filled = 0;
        }
        Ok(())
    }
}
