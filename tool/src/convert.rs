//! `fungal widen` and `fungal narrow`: whole files, written under another name until they are complete.

use crate::failure::{Failure, Status};
use crate::input::{not_sought, STDIN};
use crate::partial::Partial;
use clap::ArgMatches;
use fungalcove::{narrow_file, widen_file, Error};
use std::fs::{self, File, Metadata, Permissions};
use std::io::{self, BufWriter};
use std::os::unix::fs::{MetadataExt, PermissionsExt};
use std::path::{Path, PathBuf};

/// How many bytes are copied at a time.
const PIECE: usize = 1 << 18;
/// The permissions among a file's mode.
const PERMISSIONS: u32 = 0o777;

/// Writes the new version of a file, and answers its size.
type Conversion = fn(File, &mut Partial) -> Result<u64, Error>;

pub fn widen(asked: &ArgMatches) -> Result<Status, Failure> {
    convert(asked, |old, new| widen_file(old, BufWriter::with_capacity(PIECE, new)))
}

pub fn narrow(asked: &ArgMatches) -> Result<Status, Failure> {
    convert(asked, |old, new| narrow_file(old, BufWriter::with_capacity(PIECE, new)))
}

fn convert(asked: &ArgMatches, conversion: Conversion) -> Result<Status, Failure> {
    let path = |id: &str| asked.get_one::<PathBuf>(id).expect("clap asks for it");
    let (old, new) = (path("in"), path("out"));
    let (file, metadata) = open(old)?;
    let (target, replaced) = target(new, &metadata, asked.get_flag("force"))?;
    let mut partial = Partial::new(&target, metadata.mode() & PERMISSIONS);
    conversion(file, &mut partial).map_err(|error| blame(error, old, new, &partial))?;
    match partial.keep(replaced) {
        Err(error) if error.kind() == io::ErrorKind::AlreadyExists => Err(taken(new)),
        kept => kept.map_err(|error| Failure::of(new, error)),
    }?;
    Ok(Status::Good)
}

/// The old file. It is looked at before it is opened: to open a pipe may take for ever.
fn open(old: &Path) -> Result<(File, Metadata), Failure> {
    if old == Path::new(STDIN) {
        return Err(not_sought(old));
    }
    let metadata = fs::metadata(old).map_err(|error| Failure::of(old, error))?;
    if !metadata.is_file() {
        return Err(not_sought(old));
    }
    let file = File::open(old).map_err(|error| Failure::of(old, error))?;
    Ok((file, metadata))
}

/// Where the new file goes, and the permissions of the one that it replaces. A link is followed, so that it stays one.
fn target(new: &Path, old: &Metadata, force: bool) -> Result<(PathBuf, Option<Permissions>), Failure> {
    if new == Path::new(STDIN) {
        return Err(Failure::unfit(new, "stands for no file here; name one (./- is one that is called so)"));
    }
    if fs::symlink_metadata(new).is_err() {
        return Ok((new.to_path_buf(), None));
    }
    let there = fs::metadata(new).map_err(|error| Failure::of(new, error))?;
    if (there.dev(), there.ino()) == (old.dev(), old.ino()) {
        return Err(Failure::unfit(new, "is the file that is converted; choose another OUT"));
    }
    if !there.is_file() {
        return Err(Failure::unfit(new, "is no file that could be replaced; choose another OUT"));
    }
    if !force {
        return Err(taken(new));
    }
    let target = fs::canonicalize(new).map_err(|error| Failure::of(new, error))?;
    Ok((target, Some(Permissions::from_mode(there.mode() & PERMISSIONS))))
}

fn taken(new: &Path) -> Failure {
    Failure::unfit(new, "is there already; -f replaces it")
}

/// A refusal is about the old file; other errors are about the one that failed.
fn blame(error: Error, old: &Path, new: &Path, partial: &Partial) -> Failure {
    match error {
        Error::Io(error) if partial.failed() => Failure::of(new, error),
        error => Failure::of(old, error),
    }
}
