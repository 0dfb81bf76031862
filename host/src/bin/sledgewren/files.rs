//! Files: read whole, and replaced whole or not at all.

use std::fs::{self, File};
use std::io::{self, Read, Write};
use std::path::{Path, PathBuf};
use std::process;

use crate::failure::{Done, Failure};

/// A byte more than the longest file that is of use: what is longer need not be read to be refused.
const MOST: u64 = sledgewren::LARGE_TABLE_BYTES as u64 + 1;

fn start(path: &str) -> io::Result<Vec<u8>> {
    let mut bytes = Vec::new();
    File::open(path)?.take(MOST).read_to_end(&mut bytes)?;
    Ok(bytes)
}

pub fn read(path: &str) -> Result<Vec<u8>, Failure> {
    start(path).map_err(|error| Failure::Refused(format!("cannot read {path}: {error}")))
}

/// The temporary file beside the real one, so that renaming stays within one file system.
fn beside(path: &Path) -> io::Result<PathBuf> {
    let name = path.file_name().ok_or(io::Error::other("it names no file"))?;
    let mut hidden = std::ffi::OsString::from(".");
    hidden.push(name);
    hidden.push(format!(".{}.new", process::id()));
    Ok(path.with_file_name(hidden))
}

fn written(path: &Path, bytes: &[u8]) -> io::Result<()> {
    let mut file = File::options().write(true).create_new(true).open(path)?;
    file.write_all(bytes)?;
    file.sync_all()
}

fn replaced(path: &Path, bytes: &[u8]) -> io::Result<()> {
    // A symlink stays one: what it leads to is replaced.
    let path = if path.exists() { fs::canonicalize(path)? } else { path.to_path_buf() };
    let old = fs::metadata(&path).ok();
    if old.as_ref().is_some_and(|old| !old.is_file()) {
        return Err(io::Error::other("it is not a plain file"));
    }
    let new = beside(&path)?;
    let done = written(&new, bytes)
        .and_then(|()| old.map_or(Ok(()), |old| fs::set_permissions(&new, old.permissions())))
        .and_then(|()| fs::rename(&new, &path));
    if done.is_err() {
        // What was written is of no use; if it cannot be removed either, the first error counts.
        let _ = fs::remove_file(&new);
    }
    done
}

/// Writes a temporary file and renames it, so that the path has the old bytes or all of the new.
pub fn replace(path: &str, bytes: &[u8]) -> Done {
    replaced(Path::new(path), bytes)
        .map_err(|error| Failure::Refused(format!("cannot write {path}: {error}")))
}
