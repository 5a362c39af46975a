//! `fungal check`: the answer to each file.

use crate::brief::counted;
use crate::failure::{name_of, warn, Failure, Status};
use crate::folders::{self, Answer, Counts};
use crate::{input, json};
use clap::ArgMatches;
use fungalcove::{Opening, Versions};
use serde_json::{json, Value};
use std::path::Path;

pub fn run(asked: &ArgMatches) -> Result<Status, Failure> {
    let (versions, json) = (admitted(asked), asked.get_flag("json"));
    let answer = |path: &Path, found: Result<(), Failure>| match found.and_then(|()| input::open(path, versions)) {
        Ok(opening) if json => Answer::line(json::of_file(path, object(&opening)), status(&opening)),
        Ok(opening) => Answer::line(line(path, &opening), status(&opening)),
        Err(failure) if json => Answer::line(json::of_file(path, json::failure(&failure)), Status::Failed),
        Err(failure) => Answer::failure(failure),
    };
    let words = |counts: Counts| format!("{}, {} refused", counted(counts.all(), "file"), counts.of(Status::Bad));
    let counts = folders::each(asked, answer, words)?;
    if asked.get_flag("recursive") {
        warn(summary(counts));
    }
    if counts.of(Status::Bad) > 0 && !json {
        warn("`fungal explain FILE` shows what is wrong where, `fungal help numbers` says what to do");
    }
    Ok(counts.status())
}

/// The versions of `--admit`.
pub fn admitted(asked: &ArgMatches) -> Versions {
    match asked.get_one::<String>("admit").map(String::as_str) {
        Some("1") => Versions::CLASSIC,
        Some("2") => Versions::OFFSET64,
        _ => Versions::BOTH,
    }
}

fn status(opening: &Opening) -> Status {
    match opening.answer {
        Ok(_) => Status::Good,
        Err(_) => Status::Bad,
    }
}

fn summary(counts: Counts) -> String {
    let [accepted, refused, unread] = [Status::Good, Status::Bad, Status::Failed].map(|status| counts.of(status));
    format!("{}: {} accepted, {} refused, {} not read", counted(counts.all(), "file"), accepted, refused, unread)
}

fn line(path: &Path, opening: &Opening) -> String {
    match &opening.answer {
        Ok(header) => {
            format!("{}: 0, {} records, header ends at byte {}", name_of(path), header.record_count(), header.end())
        }
        Err(refusal) => format!("{}: {}", name_of(path), refusal),
    }
}

fn object(opening: &Opening) -> Value {
    match &opening.answer {
        Ok(header) => json!({
            "size": opening.size, "number": 0, "words": "accepted", "version": header.version().number(),
            "records": header.record_count(), "end": header.end(),
        }),
        Err(refusal) => json!({
            "size": opening.size, "number": refusal.number, "words": refusal.words(), "place": refusal.place,
        }),
    }
}
