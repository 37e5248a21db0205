//! What keeps a command from being done, where the reason is the system's.

use std::io;
use std::path::Path;

pub use answers::error::{name, one_line, visible, Error, Kind};

/// A file that cannot be read.
pub fn unreadable(file: &Path, error: &io::Error) -> Error {
    Error::of(file, format!("cannot be read: {}", plain(error)))
}

/// The system's words without its number.
pub fn plain(error: &io::Error) -> String {
    let text = error.to_string();
    let end = text.find(" (os error").unwrap_or(text.len());
    text[..end].to_lowercase()
}
