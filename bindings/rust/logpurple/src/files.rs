//! Writing the file of a table.

use crate::Error;
use std::ffi::OsString;
use std::fs::{self, File, OpenOptions};
use std::path::{Path, PathBuf};
use std::sync::atomic::{AtomicU64, Ordering};
use std::{fmt, io, process};

/// The file of a table that [`Writer::finish_to`](crate::Writer::finish_to) wrote.
#[derive(Clone, Copy, Debug, PartialEq, Eq)]
pub struct WrittenFile {
    /// The table's id.
    pub id: u64,
    /// The FNV-1a hash of all its bytes.
    pub checksum: u64,
    /// Number of its bytes.
    pub len: u64,
}

/// Why a table was not written to a file.
#[derive(Debug)]
#[non_exhaustive]
pub enum FileError {
    /// The table could not be finished.
    Table(Error),
    /// The file could not be written.
    Io(io::Error),
}

impl From<Error> for FileError {
    fn from(error: Error) -> FileError {
        FileError::Table(error)
    }
}

impl From<io::Error> for FileError {
    fn from(error: io::Error) -> FileError {
        FileError::Io(error)
    }
}

impl fmt::Display for FileError {
    fn fmt(&self, out: &mut fmt::Formatter<'_>) -> fmt::Result {
        match self {
            FileError::Table(error) => error.fmt(out),
            FileError::Io(error) => error.fmt(out),
        }
    }
}

impl std::error::Error for FileError {
    fn source(&self) -> Option<&(dyn std::error::Error + 'static)> {
        match self {
            FileError::Table(error) => Some(error),
            FileError::Io(error) => Some(error),
        }
    }
}

/// Writes a file beside a path, syncs it, and renames it. So the path has the whole file, or its
/// earlier file. A file that is replaced passes on its permissions.
pub(crate) fn save<E: From<io::Error>>(
    path: &Path,
    write: impl FnOnce(&mut File) -> Result<(), E>,
) -> Result<(), E> {
    let partial = beside(path);
    let mut file = OpenOptions::new().write(true).create_new(true).open(&partial)?;
    let written = write(&mut file).and_then(|()| Ok(complete(path, &partial, &file)?));
    if written.is_err() {
        // The first error is returned.
        let _ = fs::remove_file(&partial);
    }
    written
}

/// Returns a name beside a path that no other call of this process takes.
fn beside(path: &Path) -> PathBuf {
    static CALLS: AtomicU64 = AtomicU64::new(0);
    let call = CALLS.fetch_add(1, Ordering::Relaxed);
    let mut name = OsString::from(path);
    name.push(format!(".{}-{call}.tmp", process::id()));
    PathBuf::from(name)
}

fn complete(path: &Path, partial: &Path, file: &File) -> io::Result<()> {
    if let Ok(old) = fs::metadata(path) {
        file.set_permissions(old.permissions())?;
    }
    file.sync_all()?;
    fs::rename(partial, path)?;
    let folder = match path.parent() {
        Some(folder) if !folder.as_os_str().is_empty() => folder,
        _ => Path::new("."),
    };
    File::open(folder)?.sync_all()
}
