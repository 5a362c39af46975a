//! A file that is written under a temporary name and gets its own when it is complete.

use signal_hook::consts::{SIGALRM, SIGHUP, SIGINT, SIGQUIT, SIGTERM, SIGUSR1, SIGUSR2, SIGXCPU, SIGXFSZ};
use signal_hook::flag;
use signal_hook::iterator::Signals;
use signal_hook::low_level::emulate_default_handler;
use std::fs::{self, File, OpenOptions, Permissions};
use std::io::{self, Write};
use std::os::raw::c_int;
use std::os::unix::fs::OpenOptionsExt;
use std::path::{Path, PathBuf};
use std::process;
use std::sync::atomic::AtomicBool;
use std::sync::{Arc, Mutex, MutexGuard};
use std::thread;

/// Signals that end a program and can be caught.
const ENDING: [c_int; 8] = [SIGHUP, SIGINT, SIGQUIT, SIGTERM, SIGALRM, SIGUSR1, SIGUSR2, SIGXCPU];

/// How many temporary names are tried.
const TRIES: u32 = 100;

/// The temporary file that there is, for whoever ends the program. It is made, renamed and removed with this held.
static TEMPORARY: Mutex<Option<PathBuf>> = Mutex::new(None);

/// A file under a temporary name, which is made when the first byte is written. Unless it is kept it is removed, also where the
/// program is interrupted.
pub struct Partial {
    path: PathBuf,
    /// The permissions that a new file is made with, as far as the system lets them through.
    mode: u32,
    file: Option<File>,
    failed: bool,
}

impl Partial {
    /// Of the file of a path; it is written in the same folder, so that it can be renamed.
    pub fn new(path: &Path, mode: u32) -> Partial {
        Partial { path: path.to_path_buf(), mode, file: None, failed: false }
    }

    /// Whether making or writing the file has failed.
    pub fn failed(&self) -> bool {
        self.failed
    }

    fn file(&mut self) -> io::Result<&mut File> {
        if self.file.is_none() {
            remove_when_interrupted()?;
            self.file = Some(self.make()?);
        }
        Ok(self.file.as_mut().expect("it was made"))
    }

    fn make(&self) -> io::Result<File> {
        let mut temporary = temporary();
        for number in 0..TRIES {
            let name = self.path.with_file_name(format!(".fungal.{}-{}.part", process::id(), number));
            match OpenOptions::new().write(true).create_new(true).mode(self.mode).open(&name) {
                Ok(file) => {
                    *temporary = Some(name);
                    return Ok(file);
                }
                Err(error) if error.kind() == io::ErrorKind::AlreadyExists => (),
                Err(error) => return Err(error),
            }
        }
        Err(io::ErrorKind::AlreadyExists.into())
    }

    /// Makes it the file of its path: what it holds is on the disk before the name is. A file of that name stays, unless its
    /// permissions are handed in, which the new one then gets.
    pub fn keep(mut self, replaced: Option<Permissions>) -> io::Result<()> {
        let file = self.file()?;
        if let Some(permissions) = &replaced {
            file.set_permissions(permissions.clone())?;
        }
        file.sync_all()?;
        self.rename(replaced.is_some())?;
        remove(&mut temporary());
        // the name itself; where a folder can't be synced, the system does it in its own time
        let folder = self.path.parent().filter(|folder| *folder != Path::new("")).unwrap_or_else(|| Path::new("."));
        if let Ok(folder) = File::open(folder) {
            let _ = folder.sync_all();
        }
        Ok(())
    }

    fn rename(&self, replace: bool) -> io::Result<()> {
        let mut temporary = temporary();
        let name = temporary.clone().expect("it was made");
        if replace {
            fs::rename(&name, &self.path)?;
            *temporary = None;
            return Ok(());
        }
        // a second name is refused where it is taken, and a new name is not
        match fs::hard_link(&name, &self.path) {
            Err(error) if error.kind() != io::ErrorKind::AlreadyExists && fs::symlink_metadata(&self.path).is_err() => {
                // a file system without second names
                fs::rename(&name, &self.path)
            }
            linked => linked,
        }
    }
}

impl Write for Partial {
    fn write(&mut self, bytes: &[u8]) -> io::Result<usize> {
        let written = self.file().and_then(|file| file.write(bytes));
        self.failed |= written.as_ref().map_or_else(|error| error.kind() != io::ErrorKind::Interrupted, |_| false);
        written
    }

    fn flush(&mut self) -> io::Result<()> {
        Ok(())
    }
}

impl Drop for Partial {
    fn drop(&mut self) {
        if self.file.is_some() {
            remove(&mut temporary());
        }
    }
}

fn temporary() -> MutexGuard<'static, Option<PathBuf>> {
    TEMPORARY.lock().unwrap_or_else(|poisoned| poisoned.into_inner())
}

fn remove(temporary: &mut Option<PathBuf>) {
    if let Some(name) = temporary.take() {
        let _ = fs::remove_file(name);
    }
}

/// Signals that end a program: the temporary file goes first, and then the program ends as it would have. Those that whoever
/// started it lets it ignore, as `nohup` does, stay ignored. A file that grows past what the system allows is an error like
/// others, and no signal.
fn remove_when_interrupted() -> io::Result<()> {
    flag::register(SIGXFSZ, Arc::new(AtomicBool::new(false)))?;
    let ignored = ignored_signals();
    let heeded = ENDING.into_iter().filter(|signal| ignored >> (signal - 1) & 1 == 0);
    let mut signals = Signals::new(heeded.collect::<Vec<c_int>>())?;
    let wait = move || {
        for signal in signals.forever() {
            // held to the end, so that no file is made or renamed meanwhile
            let mut temporary = temporary();
            remove(&mut temporary);
            let _ = emulate_default_handler(signal);
        }
    };
    thread::Builder::new().spawn(wait).map(|_| ())
}

/// The signals that the program was started to ignore, a bit for each; none where the system does not say.
fn ignored_signals() -> u64 {
    let status = fs::read_to_string("/proc/self/status").unwrap_or_default();
    let mask = status.lines().find_map(|line| line.strip_prefix("SigIgn:"));
    mask.and_then(|mask| u64::from_str_radix(mask.trim(), 16).ok()).unwrap_or(0)
}
