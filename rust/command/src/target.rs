//! Files that are written: whole or not at all.

use crate::console::Console;
use crate::fault::{shown, Fault, Outcome};
use crate::source::is_standard;
use std::ffi::OsStr;
use std::fs::{self, File, Metadata, OpenOptions};
use std::io::{self, Write};
use std::os::unix::ffi::OsStrExt;
use std::os::unix::fs::{fchown, MetadataExt, OpenOptionsExt, PermissionsExt};
use std::path::{Path, PathBuf};
use std::process;

/// How many links are followed from a name to its file.
const LINKS: usize = 40;

/// The system's numbers for a file that is not there, and for a folder.
const ABSENT: i32 = 2;
const FOLDER: i32 = 21;

/// The name of an output in a fault.
pub fn name(word: &OsStr) -> Vec<u8> {
    if is_standard(word) {
        b"standard output".to_vec()
    } else {
        shown(word)
    }
}

/// Writes the bytes to the file, or to standard output.
pub fn write(console: &mut Console, word: &OsStr, bytes: &[u8]) -> Outcome<()> {
    if is_standard(word) {
        console.buffer.extend_from_slice(bytes);
        return console.flush();
    }
    replace(Path::new(word), bytes).map_err(|error| Fault::of_system(name(word), &error))
}

/// The file holds the bytes, or on a fault what it held before. A device or pipe is written to.
fn replace(path: &Path, bytes: &[u8]) -> io::Result<()> {
    let old = match fs::metadata(path) {
        Ok(old) if old.is_dir() => return Err(io::Error::from_raw_os_error(FOLDER)),
        Ok(old) if !old.is_file() => {
            return OpenOptions::new().write(true).open(path)?.write_all(bytes);
        }
        Ok(old) => Some(old),
        Err(_) if path.as_os_str().as_bytes().ends_with(b"/") => {
            return Err(io::Error::from_raw_os_error(FOLDER));
        }
        Err(error) if error.kind() == io::ErrorKind::NotFound => None,
        Err(error) => return Err(error),
    };
    let path = behind_links(path)?;
    let folder = folder_of(&path);
    let beside = Beside::create(folder, old.as_ref())?;
    beside.fill(bytes, old.as_ref())?;
    beside.rename(&path)?;
    settle(folder)
}

/// The folder that the file is in.
fn folder_of(path: &Path) -> &Path {
    match path.parent() {
        Some(folder) if !folder.as_os_str().is_empty() => folder,
        _ => Path::new("."),
    }
}

/// Holds the file's folder until the answer is dropped, so that of commands that change a file there one
/// goes on and the others wait. Where a folder cannot be held nobody waits.
pub fn hold(word: &OsStr) -> Option<File> {
    let path = behind_links(Path::new(word)).ok()?;
    let folder = File::open(folder_of(&path)).ok()?;
    folder.lock().ok()?;
    Some(folder)
}

/// The path behind symbolic links, so that they stay; there need be no file.
fn behind_links(path: &Path) -> io::Result<PathBuf> {
    let mut path = path.to_path_buf();
    for _ in 0..LINKS {
        match fs::read_link(&path) {
            Ok(target) => path = path.parent().unwrap_or(Path::new("")).join(target),
            Err(_) if path.file_name().is_some() => return Ok(path),
            Err(_) => return Err(io::Error::from_raw_os_error(ABSENT)),
        }
    }
    Err(io::Error::other("too many symbolic links"))
}

/// The folder's new entry is on the disk. Some file systems cannot be asked for that, nor can a folder
/// that is not readable.
fn settle(folder: &Path) -> io::Result<()> {
    let cannot = [io::ErrorKind::InvalidInput, io::ErrorKind::PermissionDenied];
    match File::open(folder).and_then(|folder| folder.sync_all()) {
        Err(error) if cannot.contains(&error.kind()) => Ok(()),
        outcome => outcome,
    }
}

/// A new file beside the one that is written; it is removed unless it takes that one's name.
struct Beside {
    path: PathBuf,
    file: File,
    renamed: bool,
}

impl Beside {
    /// A new file under a name of its own: private at first where it takes an old one's permissions.
    fn create(folder: &Path, old: Option<&Metadata>) -> io::Result<Beside> {
        let mode = if old.is_some() { 0o600 } else { 0o666 };
        for attempt in 0.. {
            let path = folder.join(format!(".barcovento-{}-{attempt}", process::id()));
            match OpenOptions::new().write(true).create_new(true).mode(mode).open(&path) {
                Ok(file) => return Ok(Beside { path, file, renamed: false }),
                Err(error) if error.kind() == io::ErrorKind::AlreadyExists => {}
                Err(error) => return Err(error),
            }
        }
        Err(io::ErrorKind::AlreadyExists.into())
    }

    /// Writes the bytes, with the old file's permissions, to the disk.
    fn fill(&self, bytes: &[u8], old: Option<&Metadata>) -> io::Result<()> {
        (&self.file).write_all(bytes)?;
        if let Some(old) = old {
            // Only the superuser can give a file away; whoever else writes it owns it from now on.
            let _ = fchown(&self.file, Some(old.uid()), Some(old.gid()));
            self.file.set_permissions(fs::Permissions::from_mode(old.mode() & 0o7777))?;
        }
        self.file.sync_all()
    }

    /// Takes the name.
    fn rename(mut self, path: &Path) -> io::Result<()> {
        fs::rename(&self.path, path)?;
        self.renamed = true;
        Ok(())
    }
}

impl Drop for Beside {
    fn drop(&mut self) {
        if !self.renamed {
            let _ = fs::remove_file(&self.path);
        }
    }
}
