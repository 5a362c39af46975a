//! Files by their names, and standard input.

use crate::failure::Failure;
use fungalcove::{Opening, Versions};
use std::fs::{self, File};
use std::io::{self, Seek};
use std::os::unix::fs::FileTypeExt;
use std::os::unix::io::AsFd;
use std::path::Path;

/// The name by which standard input is asked for.
pub const STDIN: &str = "-";

/// A file's first bytes, with what the header reader answers. Of a regular file nothing else is read; a pipe is read to its
/// end.
pub fn open(path: &Path, versions: Versions) -> Result<Opening, Failure> {
    let mut file =
        if path == Path::new(STDIN) { stdin() } else { File::open(path) }.map_err(|e| Failure::of(path, e))?;
    let kind = file.metadata().map_err(|error| Failure::of(path, error))?.file_type();
    if kind.is_dir() {
        return Err(Failure::unfit(path, "is a folder; `check -r` and `suspect -r` go through the files in one"));
    }
    if path != Path::new(STDIN) && (kind.is_char_device() || kind.is_block_device()) {
        return Err(Failure::unfit(path, "is a device, and no file or pipe"));
    }
    read(&mut file, kind.is_file(), versions).map_err(|error| Failure::of(path, error))
}

/// Standard input may be a file of which a part was read before; then it is read on.
fn read(file: &mut File, is_file: bool, versions: Versions) -> io::Result<Opening> {
    if is_file && file.stream_position()? == 0 {
        Opening::of_file(file, versions)
    } else {
        Opening::of_stream(file, versions)
    }
}

fn stdin() -> io::Result<File> {
    Ok(File::from(io::stdin().as_fd().try_clone_to_owned()?))
}

/// Of a stream, where a file is wanted.
pub fn not_sought(path: &Path) -> Failure {
    Failure::unfit(path, "is no file; save the input to one first")
}

/// A file that will be sought in, with its first bytes. A stream can't be.
pub fn open_sought(path: &Path) -> Result<(Opening, File), Failure> {
    let is_stream = path == Path::new(STDIN) || fs::metadata(path).map_or(false, |found| !found.is_file());
    if is_stream && !path.is_dir() {
        return Err(not_sought(path));
    }
    let mut file = File::open(path).map_err(|error| Failure::of(path, error))?;
    if path.is_dir() {
        return Err(Failure::unfit(path, "is a folder"));
    }
    let opening = Opening::of_file(&mut file, Versions::BOTH).map_err(|error| Failure::of(path, error))?;
    Ok((opening, file))
}
