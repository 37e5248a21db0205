//! Files of tables and lists: read whole, and written whole through a temporary
//! file, so that a power cut leaves the old file or the new one.

use std::fs::{self, File, Metadata};
use std::io::{self, Read, Stdin, Write};
use std::os::unix::fs::{fchown, MetadataExt};
use std::path::{Path, PathBuf};
use std::process;
use std::str::Utf8Error;
use std::sync::atomic::{AtomicBool, Ordering};
use std::time::Duration;

use answers::stored::{without_mark, Stored};
use tempfile::NamedTempFile;
use tillerclover::Given;

use crate::error::{name, plain, unreadable, Error, Kind};
use crate::lock::Locked;

/// No file of tables and no list is longer.
const LONGEST: u64 = 65_536;

/// The name that represents standard input.
pub fn is_standard(path: &Path) -> bool {
    path == Path::new("-")
}

/// A file that is to be written is no standard input.
pub fn not_standard(path: &Path) -> Result<(), Error> {
    match is_standard(path) {
        true => Err(Error::of(path, "is standard input, and cannot be written; name a file")),
        false => Ok(()),
    }
}

/// A whole file of tables or a list.
pub fn read(path: &Path) -> Result<Vec<u8>, Error> {
    read_up_to(path, LONGEST).and_then(|bytes| not_too_long(path, bytes))
}

/// The tables of a file, damaged or not.
pub fn tables(path: &Path, defaults: Given) -> Result<Stored, Error> {
    Stored::of(&read(path)?, defaults).map_err(|error| Error::of(path, error))
}

/// Tables that are to be judged on: a damaged file has none.
pub fn whole_tables(path: &Path, defaults: Given) -> Result<Stored, Error> {
    Stored::whole(path, &read(path)?, defaults)
}

/// A whole text, of at most a million bytes.
pub fn read_text(path: &Path) -> Result<String, Error> {
    const MOST: u64 = 1 << 20;
    let bytes = read_up_to(path, MOST)?;
    if bytes.len() as u64 > MOST {
        return Err(Error::of(path, format!("has more than {MOST} bytes")));
    }
    let text = std::str::from_utf8(without_mark(&bytes));
    let no_text = |error: Utf8Error| format!("is no text: byte {} is not UTF-8", error.valid_up_to());
    text.map(String::from).map_err(|error| Error::of(path, no_text(error)))
}

/// Standard input, which is there once.
pub fn standard() -> Result<Stdin, Error> {
    static READ: AtomicBool = AtomicBool::new(false);
    match READ.swap(true, Ordering::Relaxed) {
        true => Err(Error::of(Path::new("-"), "is standard input, and was read before; name a file")),
        false => Ok(io::stdin()),
    }
}

/// A file, or standard input, up to one byte more than that many.
fn read_up_to(path: &Path, most: u64) -> Result<Vec<u8>, Error> {
    let mut bytes = Vec::new();
    let done = if is_standard(path) {
        standard()?.take(most + 1).read_to_end(&mut bytes)
    } else {
        File::open(path).and_then(|file| file.take(most + 1).read_to_end(&mut bytes))
    };
    done.map_err(|error| unreadable(path, &error))?;
    Ok(bytes)
}

fn not_too_long(path: &Path, bytes: Vec<u8>) -> Result<Vec<u8>, Error> {
    if bytes.len() as u64 > LONGEST {
        return Err(Error::of(path, format!("has more than {LONGEST} bytes, and is neither tables nor a list")));
    }
    Ok(bytes)
}

/// How a file is changed.
#[derive(Clone, Copy, Debug, PartialEq, Eq)]
pub struct Care {
    /// So long other runs of this command are waited for.
    pub wait: Duration,
    /// Whether the old file is kept, with `~` after its name.
    pub backup: bool,
}

/// The name under which the old file is kept: of the file itself where the path is a link.
pub fn backup_path(path: &Path) -> PathBuf {
    let mut name = target_of(path).into_os_string();
    name.push("~");
    PathBuf::from(name)
}

/// After a link the file itself is replaced.
fn target_of(path: &Path) -> PathBuf {
    fs::canonicalize(path).unwrap_or_else(|_| path.to_path_buf())
}

fn folder_of(target: &Path) -> &Path {
    match target.parent() {
        Some(folder) if folder != Path::new("") => folder,
        _ => Path::new("."),
    }
}

impl Locked {
    /// The whole file.
    pub fn read(&self) -> Result<Vec<u8>, Error> {
        let bytes = self.bytes(LONGEST + 1).map_err(|error| unreadable(&self.path, &error))?;
        not_too_long(&self.path, bytes)
    }

    /// Writes the file again: a temporary file next to it, synced, renamed, and the folder synced. With `backup` the old
    /// file stays, with `~` after its name.
    pub fn replace(self, bytes: &[u8], backup: bool) -> Result<(), Error> {
        let unwritten = |reason: String| Error::of(&self.path, format!("cannot be written: {reason}; it is as it was"));
        let old = self.metadata().map_err(|error| unwritten(plain(&error)))?;
        if !old.is_file() {
            return Err(unwritten("it is no regular file".into()));
        }
        if let Some(reason) = &self.unwritable {
            return Err(unwritten(reason.clone()));
        }
        let target = target_of(&self.path);
        let file = beside(&target, bytes, Some(&old)).map_err(|error| unwritten(plain(&error)))?;
        if backup {
            // The old file is safe under its second name before the new one takes its place.
            keep(&target, &self).and_then(|()| sync_folder(&target)).map_err(|error| {
                unwritten(format!("the old file cannot be kept as {}: {}", name(&backup_path(&target)), plain(&error)))
            })?;
        }
        file.persist(&target).map_err(|error| unwritten(plain(&error.error)))?;
        sync(&self.path, &target)
    }
}

/// Writes a file. One that is there stays as it is, or with `replace` is locked and replaced.
pub fn write(path: &Path, bytes: &[u8], replace: Option<Care>) -> Result<(), Error> {
    not_standard(path)?;
    match (fs::symlink_metadata(path).is_ok(), replace) {
        (true, None) => Err(already(path)),
        (true, Some(_)) if path.is_dir() => {
            Err(Error::of(path, "cannot be written: it is a directory; it is as it was"))
        }
        (true, Some(care)) if path.exists() => Locked::open(path, care.wait)?.replace(bytes, care.backup),
        _ => create(path, bytes),
    }
}

fn already(path: &Path) -> Error {
    Error::of(path, "is there already, and stays as it is; --force replaces it")
}

/// Writes a file where none is.
fn create(path: &Path, bytes: &[u8]) -> Result<(), Error> {
    let unwritten = |error: io::Error| match error.kind() {
        io::ErrorKind::AlreadyExists => already(path),
        _ => Error::of(path, format!("cannot be written: {}; no file is left behind", plain(&error))),
    };
    let file = beside(path, bytes, None).map_err(unwritten)?;
    file.persist_noclobber(path).map_err(|error| unwritten(error.error))?;
    sync(path, path)
}

fn sync(path: &Path, target: &Path) -> Result<(), Error> {
    sync_folder(target).map_err(|error| {
        let message = format!("WAS changed, but a power cut may take it back: {}", plain(&error));
        Error { kind: Kind::Unreported, ..Error::of(path, message) }
    })
}

/// Syncs the folder of a file.
pub fn sync_folder(target: &Path) -> io::Result<()> {
    File::open(folder_of(target)).and_then(|folder| folder.sync_all())
}

/// A temporary file with these bytes, synced, with the mode and the owner of the file that it is to replace.
fn beside(target: &Path, bytes: &[u8], old: Option<&Metadata>) -> io::Result<NamedTempFile> {
    let mut file = tempfile::Builder::new().prefix(".tillerclover-").tempfile_in(folder_of(target))?;
    file.write_all(bytes)?;
    if let Some(old) = old {
        // Nobody but root can give a file away.
        let _ = fchown(file.as_file(), Some(old.uid()), Some(old.gid()));
        file.as_file().set_permissions(old.permissions())?;
    }
    file.as_file().sync_all()?;
    Ok(file)
}

/// Keeps the file under its second name: by a link, or by a copy where the file system has none.
fn keep(target: &Path, old: &Locked) -> io::Result<()> {
    let kept = backup_path(target);
    let link = folder_of(target).join(format!(".tillerclover-{}~", process::id()));
    let _ = fs::remove_file(&link);
    if fs::hard_link(target, &link).is_ok() {
        let renamed = fs::rename(&link, &kept);
        // It stays where the rename failed, or where both were names of the file before.
        let _ = fs::remove_file(&link);
        return renamed;
    }
    let bytes = old.bytes(u64::MAX)?;
    beside(&kept, &bytes, Some(&old.metadata()?))?.persist(&kept).map_err(|error| error.error)?;
    Ok(())
}
