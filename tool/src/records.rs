//! Records among the arguments of a command, in words, or in files that arguments
//! name.

use std::ffi::{OsStr, OsString};
use std::os::unix::ffi::OsStrExt;
use std::path::Path;

use answers::parse;
use answers::steps::{of_lines, Make, Step};

use crate::error::Error;
use crate::store;

/// The steps that arguments name. `-` represents lines from standard input, `@FILE` for lines of a file.
pub fn of_arguments(arguments: &[OsString], clock: u32, make: Make) -> Result<Vec<Step>, Error> {
    let mut steps = Vec::new();
    let mut words: Vec<String> = Vec::new();
    for argument in arguments {
        let Some(path) = file_of_lines(argument) else {
            words.push(word(argument)?);
            continue;
        };
        steps.extend(of_words(&words, clock, make)?);
        words.clear();
        let text = store::read_text(path)?;
        steps.extend(of_lines(&text, clock, make).map_err(|error| Error::of(path, error))?);
    }
    steps.extend(of_words(&words, clock, make)?);
    Ok(steps)
}

/// An argument as text. One that is none would be another record with other bytes instead of its own.
pub fn word(argument: &OsString) -> Result<String, Error> {
    let shown = argument.to_string_lossy();
    let text = argument.to_str().map(String::from);
    text.ok_or_else(|| {
        Error::new(format!("record '{shown}': is no text, since it is not UTF-8; hex:.. takes any bytes"))
    })
}

/// The file that an argument represents, where it is no record itself.
fn file_of_lines(argument: &OsStr) -> Option<&Path> {
    match argument.as_bytes() {
        b"-" => Some(Path::new("-")),
        [b'@', name @ ..] => Some(Path::new(OsStr::from_bytes(name))),
        _ => None,
    }
}

fn of_words(words: &[String], clock: u32, make: Make) -> Result<Vec<Step>, Error> {
    let records = parse::records(words).map_err(Error::new)?;
    Ok(records.into_iter().map(|record| Step { clock, act: make(record) }).collect())
}
