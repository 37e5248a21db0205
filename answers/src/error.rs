//! What keeps a command from being done, in a sentence that names the file, with
//! the exit status that says how far it came.

use std::fmt;
use std::path::{Path, PathBuf};

use serde_json::{json, Value};

/// How far the command came.
#[derive(Clone, Copy, Debug, PartialEq, Eq)]
pub enum Kind {
    /// It was not done.
    Failed,
    /// It was not done, since another process holds the file.
    InUse,
    /// The file was changed, but the report of it was lost, or a power cut may take it back.
    Unreported,
}

impl Kind {
    /// The exit status.
    pub fn status(self) -> u8 {
        match self {
            Kind::Failed => 2,
            Kind::InUse => 3,
            Kind::Unreported => 4,
        }
    }

    fn name(self) -> &'static str {
        match self {
            Kind::Failed => "failed",
            Kind::InUse => "in-use",
            Kind::Unreported => "unreported",
        }
    }
}

/// A sentence for the user, and what programs want of it.
#[derive(Clone, Debug, PartialEq, Eq)]
pub struct Error {
    /// How far the command came.
    pub kind: Kind,
    /// The file that it is about.
    pub file: Option<PathBuf>,
    /// The process that holds the file.
    pub process: Option<u32>,
    /// What is wrong, without the file's name.
    pub message: String,
}

impl Error {
    /// About no file.
    pub fn new(message: impl Into<String>) -> Error {
        Error { kind: Kind::Failed, file: None, process: None, message: message.into() }
    }

    /// An error of a file, and what is wrong with it.
    pub fn of(file: &Path, message: impl fmt::Display) -> Error {
        Error { file: Some(file.into()), ..Error::new(message.to_string()) }
    }

    /// For programs.
    pub fn json(&self) -> Value {
        json!({ "error": {
            "kind": self.kind.name(),
            "status": self.kind.status(),
            "file": self.file.as_ref().map(|file| file.display().to_string()),
            "process": self.process,
            "message": self.message,
        }})
    }
}

impl std::error::Error for Error {}

impl fmt::Display for Error {
    fn fmt(&self, f: &mut fmt::Formatter) -> fmt::Result {
        if let Some(file) = &self.file {
            write!(f, "{}: ", name(file))?;
        }
        f.write_str(&visible(&self.message))
    }
}

/// A text without letters that a terminal would obey: what is quoted may come from anybody's file.
pub fn visible(text: &str) -> String {
    text.chars().map(|letter| if matches!(letter, '\n' | '\t') { letter.to_string() } else { seen(letter) }).collect()
}

/// The same in one line and one column: a name is no line of its own.
pub fn one_line(text: &str) -> String {
    text.chars().map(seen).collect()
}

/// The name of a file, in one line.
pub fn name(path: &Path) -> String {
    one_line(&path.display().to_string())
}

/// A letter, or how it is written where it is obeyed: those that control, and those that turn the order of others.
fn seen(letter: char) -> String {
    match letter {
        '\u{200e}' | '\u{200f}' | '\u{2028}'..='\u{202e}' | '\u{2066}'..='\u{2069}' | '\u{feff}' => {
            letter.escape_unicode().to_string()
        }
        _ if letter.is_control() => letter.escape_default().to_string(),
        _ => letter.to_string(),
    }
}

#[cfg(test)]
mod tests {
    use super::*;

    #[test]
    fn a_terminal_is_told_nothing_but_text() {
        let error = Error::of(Path::new("a\x1b[2J"), "unknown key \"\u{9b}31m\"");
        assert_eq!(error.to_string(), "a\\u{1b}[2J: unknown key \"\\u{9b}31m\"");
        assert_eq!(visible("two\n\tlines\u{202e}"), "two\n\tlines\\u{202e}");
        assert_eq!(name(Path::new("a\nb\tc: sound")), "a\\nb\\tc: sound");
    }
}
