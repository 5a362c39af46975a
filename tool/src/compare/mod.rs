//! `fungal compare`: whether two files hold the same, or where they first differ.

mod contents;

use crate::brief::inclusive;
use crate::failure::{name_of, warn, Failure, Status};
use crate::held::Held;
use crate::values::exact;
use crate::{input, lonely};
use clap::ArgMatches;
use fungalcove::{Header, Variable};
use std::fs::File;
use std::io::{self, Write};
use std::path::{Path, PathBuf};

/// How many bytes of each file are held at a time.
const PIECE: u64 = 1 << 18;

pub fn run(asked: &ArgMatches) -> Result<Status, Failure> {
    let path = |id: &str| asked.get_one::<PathBuf>(id).expect("clap asks for it").as_path();
    let (a, b) = (Side::open(path("a"))?, Side::open(path("b"))?);
    let difference = match contents::difference(&a.header, &b.header) {
        Some(difference) => Some(difference),
        None => {
            a.header.variables().for_each(|variable| lonely::caution(a.path, &a.header, &variable));
            Compared::new(&a, &b).values()?
        }
    };
    match difference {
        None => Ok(Status::Good),
        Some(difference) => {
            writeln!(io::stdout().lock(), "{} and {} differ: {}", name_of(a.path), name_of(b.path), difference)?;
            Ok(Status::Bad)
        }
    }
}

/// A file that is compared.
struct Side<'p> {
    path: &'p Path,
    header: Header,
    file: File,
    size: u64,
}

impl<'p> Side<'p> {
    fn open(path: &'p Path) -> Result<Side<'p>, Failure> {
        let (opening, file) = input::open_sought(path)?;
        let header = opening.answer.map_err(|refusal| Failure::of(path, refusal))?;
        Ok(Side { path, header, file, size: opening.size })
    }

    fn held(&self) -> Held<'_> {
        Held::new(&self.file, self.size)
    }

    fn failed(&self) -> impl Fn(io::Error) -> Failure + '_ {
        move |error| Failure::of(self.path, error)
    }
}

/// Both sides of one variable: where it stands in each.
struct Pair<'s> {
    a: Variable<'s>,
    b: Variable<'s>,
    /// Whether both files have ended before a record; what follows of it then lies behind their ends too.
    ended: bool,
}

/// What comes of two ranges of bytes.
enum Looked {
    Same,
    /// The first byte that differs, counted from the ranges' starts.
    Apart(u64),
    /// Which of the files, A and B, end inside; up to there they are the same.
    Ended(bool, bool),
}

/// Two files whose headers say the same, while their values are compared.
struct Compared<'s> {
    a: &'s Side<'s>,
    b: &'s Side<'s>,
    held_a: Held<'s>,
    held_b: Held<'s>,
    /// The first records that neither file holds, of each variable.
    missing: Vec<String>,
}

impl<'s> Compared<'s> {
    fn new(a: &'s Side<'s>, b: &'s Side<'s>) -> Compared<'s> {
        Compared { a, b, held_a: a.held(), held_b: b.held(), missing: Vec::new() }
    }

    /// The first difference: of the fixed variables, then record by record, as they mostly lie in files.
    fn values(&mut self) -> Result<Option<String>, Failure> {
        let variables = self.a.header.variables().zip(self.b.header.variables());
        let pairs = variables.map(|(a, b)| Pair { a, b, ended: false });
        let (mut fixed, mut records): (Vec<_>, Vec<_>) = pairs.partition(|pair| !pair.a.is_record());
        let mut difference = self.record(&mut fixed, 0)?;
        for record in 0..self.a.header.record_count() {
            if difference.is_some() || records.iter().all(|pair| pair.ended) {
                break;
            }
            difference = self.record(&mut records, record)?;
        }
        if difference.is_none() {
            difference = self.unpadded(&records)?;
        }
        if difference.is_none() && !self.missing.is_empty() {
            warn(format_args!(
                "both files end before {}; all that they hold is the same",
                self.missing.join(", before ")
            ));
        }
        Ok(difference)
    }

    /// The first difference within a record of some variables.
    fn record(&mut self, pairs: &mut [Pair<'_>], record: u64) -> Result<Option<String>, Failure> {
        for pair in pairs.iter_mut().filter(|pair| !pair.ended) {
            let bytes = |variable: &Variable<'_>| variable.record_bytes(record).expect("a record below the count");
            let (at_a, at_b) = (bytes(&pair.a), bytes(&pair.b));
            let difference = match self.look(at_a.start, at_b.start, at_a.end - at_a.start)? {
                Looked::Same => None,
                Looked::Apart(byte) => Some(self.element(pair, record, byte / pair.a.data_type().size())?),
                Looked::Ended(a, b) => self.end(pair, record, a, b),
            };
            if difference.is_some() {
                return Ok(difference);
            }
        }
        Ok(None)
    }

    /// The first difference where netCDF's library has the values of a lonely record variable.
    fn unpadded(&mut self, records: &[Pair<'_>]) -> Result<Option<String>, Failure> {
        let pair = match records {
            [pair] if lonely::padding(&self.a.header, &pair.a) > 0 => pair,
            _ => return Ok(None),
        };
        let length = pair.a.len() * pair.a.data_type().size();
        let difference = match self.look(pair.a.begin(), pair.b.begin(), length)? {
            Looked::Same | Looked::Ended(true, true) => return Ok(None),
            Looked::Apart(byte) => format!("byte {} of it", byte),
            Looked::Ended(a, _) => format!("{} ends before the other", name_of(if a { self.a } else { self.b }.path)),
        };
        Ok(Some(format!("variable {:?}, read without padding: {}", pair.a.name(), difference)))
    }

    /// Looks at as many bytes from a place of each file on.
    fn look(&mut self, at_a: u64, at_b: u64, length: u64) -> Result<Looked, Failure> {
        let mut same = 0;
        while same < length {
            let part_a = self.held_a.from(at_a + same, PIECE).map_err(self.a.failed())?;
            let part_b = self.held_b.from(at_b + same, PIECE).map_err(self.b.failed())?;
            let left = (length - same).min(PIECE) as usize;
            let n = part_a.len().min(part_b.len()).min(left);
            if n == 0 {
                return Ok(Looked::Ended(part_a.is_empty(), part_b.is_empty()));
            }
            if part_a[..n] != part_b[..n] {
                let alike = part_a.iter().zip(part_b).take_while(|(a, b)| a == b).count() as u64;
                return Ok(Looked::Apart(same + alike));
            }
            same += n as u64;
        }
        Ok(Looked::Same)
    }

    /// A record that a file ends before.
    fn end(&mut self, pair: &mut Pair<'_>, record: u64, a: bool, b: bool) -> Option<String> {
        let place = format!("the end of variable {:?}, record {}", pair.a.name(), record);
        if a && b {
            pair.ended = true;
            self.missing.push(place);
            return None;
        }
        let (ends, holds) = if a { (self.a, self.b) } else { (self.b, self.a) };
        Some(format!("{} ends before {}, which {} holds", name_of(ends.path), place, name_of(holds.path)))
    }

    /// An element that differs, as the proved reads read it.
    fn element(&mut self, pair: &Pair<'_>, record: u64, element: u64) -> Result<String, Failure> {
        let a = told(&mut self.held_a, &pair.a, record, element).map_err(self.a.failed())?;
        let b = told(&mut self.held_b, &pair.b, record, element).map_err(self.b.failed())?;
        Ok(format!("variable {:?}, record {}, element {}: {}, {}", pair.a.name(), record, element, a, b))
    }
}

/// An element's value, and where it stands.
fn told(held: &mut Held<'_>, variable: &Variable<'_>, record: u64, element: u64) -> io::Result<String> {
    let size = variable.data_type().size();
    let start = variable.record_bytes(record).expect("a record below the count").start + element * size;
    held.fetch(start, size)?;
    let value = held.element(variable, record, element).map_or("nothing".to_string(), exact);
    Ok(format!("{} at bytes {}", value, inclusive(start..start + size)))
}
