//! `fungal explain`: by which rules of the format a header's bytes are derived, and which rule is not met.

mod fault;
mod judge;
mod said;
mod walk;

use crate::brief::inclusive;
use crate::check::admitted;
use crate::failure::{name_of, Failure, Status};
use crate::input;
use clap::ArgMatches;
use fault::Fault;
use fungalcove::{Opening, Refusal, Versions};
use std::io::{self, BufWriter, Write};
use std::ops::Range;
use std::path::{Path, PathBuf};
use walk::Derivation;

/// How many bytes of a faulty place are shown before and after those that are marked.
const AROUND: usize = 12;
/// The widest range of bytes that is marked in full.
const MARKED: usize = 8;

pub fn run(asked: &ArgMatches) -> Result<Status, Failure> {
    let versions = admitted(asked);
    let files: Vec<&PathBuf> = asked.get_many("files").into_iter().flatten().collect();
    let mut out = BufWriter::new(io::stdout().lock());
    let mut status = Status::Good;
    for path in &files {
        match input::open(path, versions) {
            Ok(opening) => {
                heading(&mut out, path, &opening)?;
                explain(&mut out, &opening, versions)?;
                status = status.max(if opening.answer.is_ok() { Status::Good } else { Status::Bad });
            }
            Err(failure) => {
                out.flush()?;
                failure.report();
                status = status.max(failure.status());
            }
        }
    }
    out.flush()?;
    Ok(status)
}

fn heading(out: &mut impl Write, path: &Path, opening: &Opening) -> io::Result<()> {
    writeln!(out, "{}, {} bytes", name_of(path), opening.size)
}

fn explain(out: &mut impl Write, opening: &Opening, versions: Versions) -> io::Result<()> {
    // up to here the reader has accepted every byte
    let (stop, records) = match &opening.answer {
        Ok(header) => (header.end() as usize, Some(header.record_count())),
        // a file of that size is refused before a byte is looked at
        Err(refusal @ Refusal { number: 21, .. }) => return writeln!(out, "refused: {}", refusal),
        Err(refusal) => (refusal.place.map_or(opening.prefix.len(), |place| place as usize), None),
    };
    let derivation = walk::walk(&opening.prefix, stop, records);
    lines(out, &derivation)?;
    match &opening.answer {
        Ok(header) => {
            writeln!(out, "accepted: 0, {} records, header ends at byte {}", header.record_count(), header.end())
        }
        Err(refusal) => {
            writeln!(out, "refused: {}", refusal)?;
            match fault::find(opening, *refusal, &derivation, versions) {
                Some(fault) => show(out, &opening.prefix, &fault),
                None => Ok(()),
            }
        }
    }
}

/// First and last byte, the rule, indented as the grammar nests, and what the bytes say.
fn lines(out: &mut impl Write, derivation: &Derivation) -> io::Result<()> {
    let ranges: Vec<String> = derivation.lines.iter().map(|line| inclusive(wide(&line.bytes))).collect();
    let rules: Vec<String> =
        derivation.lines.iter().map(|line| format!("{}{}", "  ".repeat(line.depth), line.rule)).collect();
    let width = |texts: &[String]| texts.iter().map(String::len).max().unwrap_or(0);
    let (wide, rule_wide) = (width(&ranges), width(&rules));
    for ((range, rule), line) in ranges.iter().zip(&rules).zip(&derivation.lines) {
        let text = format!("{:>wide$}  {:rule_wide$}  {}", range, rule, line.says, wide = wide, rule_wide = rule_wide);
        writeln!(out, "{}", text.trim_end())?;
    }
    Ok(())
}

fn wide(bytes: &Range<usize>) -> Range<u64> {
    bytes.start as u64..bytes.end as u64
}

/// The rule, the bytes in hexadecimal with the offending ones marked below, and why they offend.
fn show(out: &mut impl Write, file: &[u8], fault: &Fault) -> io::Result<()> {
    writeln!(out, "  not met: {}", fault.rule)?;
    if !fault.bytes.is_empty() || !fault.marked.is_empty() {
        let from = fault.bytes.start.max(fault.marked.start.saturating_sub(AROUND));
        let to = fault.bytes.end.max(fault.marked.end).min(fault.marked.start + MARKED + AROUND);
        let place = format!("  byte {}: ", from);
        let hex = |at: usize| file.get(at).map_or("..".to_string(), |byte| format!("{:02x}", byte));
        let mark = |at: usize| if fault.marked.contains(&at) { "^^" } else { "  " };
        let joined = |part: &dyn Fn(usize) -> String| (from..to).map(part).collect::<Vec<_>>().join(" ");
        writeln!(out, "{}{}", place, joined(&hex))?;
        writeln!(out, "{}{}", " ".repeat(place.len()), joined(&|at| mark(at).to_string()).trim_end())?;
    }
    writeln!(out, "  {}", fault.why)
}
