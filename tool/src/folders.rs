//! Files by name and, where asked, all files below a folder, one after the other.

use crate::failure::{Failure, Status};
use crate::progress::Progress;
use clap::ArgMatches;
use std::fs;
use std::io::{self, BufWriter, Write};
use std::path::{Path, PathBuf};

/// What is to be said of a file: a line of the output, or why there is none.
pub struct Answer {
    pub line: Option<String>,
    pub failure: Option<Failure>,
    pub status: Status,
}

impl Answer {
    pub fn line(line: String, status: Status) -> Answer {
        Answer { line: Some(line), failure: None, status }
    }

    pub fn nothing() -> Answer {
        Answer { line: None, failure: None, status: Status::Good }
    }

    pub fn failure(failure: Failure) -> Answer {
        Answer { line: None, failure: Some(failure), status: Status::Failed }
    }
}

/// How many files had each status.
#[derive(Default, Clone, Copy)]
pub struct Counts([u64; 3]);

impl Counts {
    pub fn of(&self, status: Status) -> u64 {
        self.0[status as usize]
    }

    pub fn all(&self) -> u64 {
        self.0.iter().sum()
    }

    /// The worst that there was.
    pub fn status(&self) -> Status {
        let found = |status: &Status| self.of(*status) > 0;
        [Status::Failed, Status::Bad].into_iter().find(found).unwrap_or(Status::Good)
    }
}

/// Answers for every file that the command line names and, with `--recursive`, for those below the folders that it names. Where
/// a folder can't be gone through, that is what is found of it.
pub fn each(
    asked: &ArgMatches,
    answer: impl Fn(&Path, Result<(), Failure>) -> Answer,
    words: impl Fn(Counts) -> String,
) -> Result<Counts, Failure> {
    let recursive = asked.get_flag("recursive");
    let named = asked.get_many::<PathBuf>("files").into_iter().flatten();
    let mut out = BufWriter::new(io::stdout().lock());
    let mut progress = Progress::new(recursive);
    let mut counts = Counts::default();
    for (path, found) in files(named, recursive) {
        progress.step(|| words(counts));
        let answer = answer(&path, found);
        counts.0[answer.status as usize] += 1;
        if let Some(line) = answer.line {
            progress.print(&mut out, &line)?;
        }
        if let Some(failure) = answer.failure {
            // what was found before is told before
            out.flush()?;
            progress.aside(|| failure.report());
        }
    }
    out.flush()?;
    progress.end();
    Ok(counts)
}

/// The named files and, with `recursive`, those below the named folders, by name.
fn files<'a>(
    named: impl Iterator<Item = &'a PathBuf> + 'a,
    recursive: bool,
) -> impl Iterator<Item = (PathBuf, Result<(), Failure>)> + 'a {
    named.flat_map(move |path| Below { todo: vec![(path.clone(), recursive && path.is_dir())] })
}

/// What is left of a walk: files, and folders that are yet to be opened; the next one is last.
struct Below {
    todo: Vec<(PathBuf, bool)>,
}

impl Iterator for Below {
    type Item = (PathBuf, Result<(), Failure>);

    fn next(&mut self) -> Option<Self::Item> {
        while let Some((path, is_folder)) = self.todo.pop() {
            if !is_folder {
                return Some((path, Ok(())));
            }
            match entries(&path) {
                Ok(entries) => self.todo.extend(entries.into_iter().rev()),
                Err(error) => {
                    let failure = Failure::of(&path, error);
                    return Some((path, Err(failure)));
                }
            }
        }
        None
    }
}

/// The files and folders of a folder, by name. Links to files are followed, those to folders are not, so that the walk ends;
/// what is known to be neither, as a socket, is left out.
fn entries(folder: &Path) -> io::Result<Vec<(PathBuf, bool)>> {
    let mut found = Vec::new();
    for entry in fs::read_dir(folder)? {
        let entry = entry?;
        let (path, kind) = (entry.path(), entry.file_type()?);
        let is_file =
            kind.is_file() || (kind.is_symlink() && fs::metadata(&path).map_or(true, |found| found.is_file()));
        if kind.is_dir() || is_file {
            found.push((path, kind.is_dir()));
        }
    }
    found.sort();
    Ok(found)
}
