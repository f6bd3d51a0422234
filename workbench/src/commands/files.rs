//! Files that are written: whole or not at all where that can be, and nothing
//! but a file is ever put in the place of another.

use std::fs::{self, File, Metadata, OpenOptions};
use std::io::{self, Write as _};
use std::path::{Path, PathBuf};

use super::Failure;

/// Links that lead to nothing are followed so far, as the system does.
const MOST_LINKS: usize = 40;

/// Nothing is written over the file that is read, by whatever path it is named.
///
/// # Errors
///
/// Where both are the same.
pub(super) fn not_over(read: &str, file: &str) -> Result<(), Failure> {
    match (fs::canonicalize(read), fs::canonicalize(file)) {
        (Ok(first), Ok(second)) if read != "-" && first == second => Err(Failure::Usage(format!(
            "{file} is the file that is read, and is not written over: name another"
        ))),
        _ => Ok(()),
    }
}

/// Writes a file. Where there is a file already, or nothing, whoever looks finds
/// the old one or the whole new one; links are followed, and a file keeps its
/// mode. A device or a pipe is written into.
///
/// # Errors
///
/// Where it can't be written.
pub(super) fn write_whole(file: &str, bytes: &[u8]) -> Result<(), Failure> {
    let path = Path::new(file);
    let written = match fs::metadata(path) {
        Ok(there) if there.is_file() => {
            fs::canonicalize(path).and_then(|path| replace(&path, bytes, Some(&there)))
        }
        Ok(_) => write_into(path, bytes),
        Err(error) if error.kind() == io::ErrorKind::NotFound => {
            end_of_links(path).and_then(|path| replace(&path, bytes, None))
        }
        Err(error) => Err(error),
    };
    written.map_err(|error| Failure::File(format!("cannot write {file}: {error}")))
}

/// What is no file stays what it is.
fn write_into(path: &Path, bytes: &[u8]) -> io::Result<()> {
    let mut there = OpenOptions::new().write(true).open(path)?;
    there.write_all(bytes)?;
    there.flush()
}

/// The path that a link to nothing names in the end.
fn end_of_links(path: &Path) -> io::Result<PathBuf> {
    let mut path = path.to_owned();
    for _ in 0..MOST_LINKS {
        match fs::read_link(&path) {
            Ok(to) => path = path.parent().map_or(to.clone(), |folder| folder.join(&to)),
            Err(_) => return Ok(path),
        }
    }
    // The system has followed them to nothing: somebody has changed them since.
    Err(io::Error::from(io::ErrorKind::InvalidInput))
}

/// Writes a new file beside the wanted one and renames it.
fn replace(path: &Path, bytes: &[u8], there: Option<&Metadata>) -> io::Result<()> {
    let mut beside = path.as_os_str().to_owned();
    beside.push(format!(".{}.new", std::process::id()));
    let beside = Path::new(&beside);
    let written = new_file(beside, there)
        .and_then(|mut file| file.write_all(bytes))
        .and_then(|()| fs::rename(beside, path));
    if written.is_err() {
        let _ = fs::remove_file(beside);
    }
    written
}

/// An empty file, with owner and mode of the one whose place it will take: set
/// before there is anything in it that others should not see.
fn new_file(path: &Path, there: Option<&Metadata>) -> io::Result<File> {
    // One that an earlier call has left is none of anybody's.
    let _ = fs::remove_file(path);
    let file = OpenOptions::new().write(true).create_new(true).open(path)?;
    if let Some(there) = there {
        keep_owner(path, there);
        file.set_permissions(there.permissions())?;
    }
    Ok(file)
}

/// Only some may give a file away; for all others it is their own.
#[cfg(unix)]
fn keep_owner(path: &Path, there: &Metadata) {
    use std::os::unix::fs::{chown, MetadataExt as _};
    let _ = chown(path, Some(there.uid()), Some(there.gid()));
}

#[cfg(not(unix))]
fn keep_owner(_: &Path, _: &Metadata) {}
