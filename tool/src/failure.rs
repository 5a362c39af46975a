//! What ends a command before its work is done, and the exit statuses.

use crate::brief::one_line;
use crate::numbers;
use fungalcove::{Error, Refusal};
use std::fmt::{self, Display};
use std::io::{self, Write};
use std::path::Path;
use std::process::ExitCode;

/// How a command ended; of several files the worst counts.
#[derive(Debug, Clone, Copy, PartialEq, Eq, PartialOrd, Ord)]
pub enum Status {
    /// Everything asked for was done, and nothing is wrong.
    Good,
    /// A file is refused, differs or is suspect.
    Bad,
    /// A file could not be read or written, or the command line is wrong.
    Failed,
}

impl From<Status> for ExitCode {
    fn from(status: Status) -> ExitCode {
        ExitCode::from(status as u8)
    }
}

/// Why a command could not go on.
#[derive(Debug)]
pub enum Failure {
    /// A file's bytes are refused.
    Refused(String, Refusal),
    /// A file can't be read or written.
    Io(String, io::Error),
    /// A file is not what is wanted; the words say what to do.
    Unfit(String, &'static str),
    /// Something else is wrong; the words say what to do.
    Said(String),
    /// The command's own output can't be written.
    Output(io::Error),
}

impl Failure {
    /// Of a file that a function of the library failed on.
    pub fn of(file: &Path, error: impl Into<Error>) -> Failure {
        match error.into() {
            Error::Refused(refusal) => Failure::Refused(name_of(file), refusal),
            Error::Io(error) => Failure::Io(name_of(file), error),
        }
    }

    /// Of a file that is not what is wanted.
    pub fn unfit(file: &Path, words: &'static str) -> Failure {
        Failure::Unfit(name_of(file), words)
    }

    pub fn status(&self) -> Status {
        match self {
            Failure::Refused(..) => Status::Bad,
            _ => Status::Failed,
        }
    }

    /// Says so on standard error; nothing where nobody reads the output any longer.
    pub fn report(&self) {
        match self {
            Failure::Output(error) if error.kind() == io::ErrorKind::BrokenPipe => (),
            _ => warn(self),
        }
    }
}

/// Words on standard error; where nobody reads them there is nothing to be done.
pub fn warn(words: impl Display) {
    let _ = writeln!(io::stderr(), "fungal: {}", words);
}

/// A file's name on one line.
pub fn name_of(file: &Path) -> String {
    one_line(&file.to_string_lossy())
}

impl Display for Failure {
    fn fmt(&self, f: &mut fmt::Formatter<'_>) -> fmt::Result {
        match self {
            Failure::Refused(file, refusal) => {
                write!(f, "{}: {}\n  {}", file, refusal, numbers::advice(refusal.number))
            }
            Failure::Io(file, error) => write!(f, "{}: {}", file, words(error)),
            Failure::Unfit(file, words) => write!(f, "{}: {}", file, words),
            Failure::Said(words) => f.write_str(words),
            Failure::Output(error) => write!(f, "the output can't be written: {}", error),
        }
    }
}

/// Linux's numbers for a full disk, a quota that is used up, and a file that may not grow as large.
const NO_ROOM: [i32; 3] = [28, 122, 27];

/// The system's words for an error, and what to do about it.
pub fn words(error: &io::Error) -> String {
    let said = error.to_string();
    let said = said.split(" (os error").next().unwrap_or_default();
    match error.kind() {
        io::ErrorKind::UnexpectedEof => "became shorter while it was read; try again when nobody writes it".to_string(),
        io::ErrorKind::NotFound => format!("{}; look at the spelling of its name and of its folder's", said),
        io::ErrorKind::PermissionDenied => format!("{}; ask its owner, or the owner of its folder", said),
        _ if NO_ROOM.map(Some).contains(&error.raw_os_error()) => format!("{}; choose a place with more room", said),
        _ => said.to_string(),
    }
}

/// Errors of a writer that is the command's own output.
impl From<io::Error> for Failure {
    fn from(error: io::Error) -> Failure {
        Failure::Output(error)
    }
}
