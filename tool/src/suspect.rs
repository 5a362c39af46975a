//! `fungal suspect`: the files that a 32-bit build of netcdf3 read otherwise than they are.

use crate::brief::counted;
use crate::failure::{name_of, Failure, Status};
use crate::folders::{self, Answer, Counts};
use crate::{input, json};
use clap::ArgMatches;
use fungalcove::{Guest32, Header, Versions};
use serde_json::{json, Value};
use std::ops::RangeInclusive;
use std::path::Path;

pub fn run(asked: &ArgMatches) -> Result<Status, Failure> {
    let json = asked.get_flag("json");
    let answer = |path: &Path, found: Result<(), Failure>| match found.and_then(|()| judge(path)) {
        Ok(None) => Answer::nothing(),
        Ok(Some((header, guest))) if json => Answer::line(json::of_file(path, object(&header, &guest)), Status::Bad),
        Ok(Some((header, guest))) => Answer::line(line(path, &header, &guest), Status::Bad),
        // a file that can't be judged is not known to be good
        Err(failure) if json => Answer::line(json::of_file(path, json::failure(&failure)), Status::Failed),
        Err(failure) => Answer::failure(failure),
    };
    let words = |counts: Counts| format!("{}, {} suspect", counted(counts.all(), "file"), counts.of(Status::Bad));
    Ok(folders::each(asked, answer, words)?.status())
}

/// The numbers of files that netcdf3 refuses too, on every machine: no result came of them.
const REFUSED_BY_BOTH: RangeInclusive<u8> = 1..=9;

/// The file's header and what such a build makes of it, where that is otherwise.
fn judge(path: &Path) -> Result<Option<(Header, Guest32)>, Failure> {
    match input::open(path, Versions::BOTH)?.answer {
        Ok(header) => {
            let guest = header.guest32();
            Ok(Some((header, guest)).filter(|_| guest.is_suspect()))
        }
        Err(refusal) if REFUSED_BY_BOTH.contains(&refusal.number) => Ok(None),
        Err(refusal) => Err(Failure::of(path, refusal)),
    }
}

fn line(path: &Path, header: &Header, guest: &Guest32) -> String {
    let found = guest.records.map_or_else(|error| format!("refused by {}", error), |records| records.to_string());
    let foreign = guest.first_foreign.map(|record| format!(", from record {} on taken from elsewhere", record));
    let cut = cut_name(header, guest).map(|name| format!(", {:?} cut short", name));
    let more = foreign.unwrap_or_default() + &cut.unwrap_or_default();
    format!("{}: {} records; on 32 bits {}{}", name_of(path), header.record_count(), found, more)
}

fn object(header: &Header, guest: &Guest32) -> Value {
    json!({
        "records": header.record_count(),
        "found": guest.records.ok(), "refused": guest.records.err().map(|error| error.to_string()),
        "foreign": guest.first_foreign, "cut": cut_name(header, guest),
    })
}

fn cut_name<'h>(header: &'h Header, guest: &Guest32) -> Option<&'h str> {
    guest.first_cut.and_then(|number| header.variable_at(number).ok()).map(|variable| variable.name())
}
