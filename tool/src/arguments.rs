//! Arguments that several commands share: files, the clock, default rows, how
//! carefully a file is changed.

use std::ffi::OsString;
use std::path::{Path, PathBuf};
use std::time::Duration;

use answers::parse;
use answers::service::{self, LOCKED_OUT};
use answers::stored::{without_mark, Stored};
use answers::times::{self, Day};
use clap::ArgMatches;
use tillerclover::{Ace, Cred, Given, Terminal};

use crate::error::Error;
use crate::store::{self, Care};

/// The text of an argument that has one.
pub fn text<'a>(arguments: &'a ArgMatches, name: &str) -> Option<&'a str> {
    arguments.get_one::<String>(name).map(String::as_str)
}

/// All texts of an argument.
pub fn texts(arguments: &ArgMatches, name: &str) -> Vec<String> {
    arguments.get_many(name).unwrap_or_default().cloned().collect()
}

/// The arguments that are records, or files of records.
pub fn records(arguments: &ArgMatches) -> Vec<OsString> {
    arguments.get_many("RECORD").unwrap_or_default().cloned().collect()
}

/// A path, where the argument is there.
pub fn path<'a>(arguments: &'a ArgMatches, name: &str) -> Option<&'a Path> {
    arguments.get_one::<PathBuf>(name).map(PathBuf::as_path)
}

/// A path that clap asks for.
pub fn file<'a>(arguments: &'a ArgMatches, name: &str) -> &'a Path {
    path(arguments, name).unwrap_or(Path::new(""))
}

/// The terminal's clock.
pub fn clock(arguments: &ArgMatches) -> Result<u32, Error> {
    // What is handed in needs no clock.
    let given = arguments.try_get_one::<String>("clock").ok().flatten();
    times::read(given.map_or("now", String::as_str), Day::Begins)
        .map_err(|error| Error::new(format!("--clock: {error}")))
}

/// So long other runs of this command are waited for.
pub fn wait(arguments: &ArgMatches) -> Duration {
    Duration::from_secs(arguments.get_one::<u64>("wait").copied().unwrap_or_default())
}

/// How a file is to be changed.
pub fn care(arguments: &ArgMatches) -> Care {
    Care { wait: wait(arguments), backup: !arguments.get_flag("no-backup") }
}

/// The same where `--force` is there.
pub fn force(arguments: &ArgMatches) -> Option<Care> {
    arguments.get_flag("force").then(|| care(arguments))
}

/// Keeps a change from being written after which nobody could change the tables again, unless `--force` is there.
pub fn not_locked_out(arguments: &ArgMatches, path: &Path, [before, after]: [&Terminal; 2]) -> Result<(), Error> {
    let asked = arguments.get_flag("force") || arguments.get_flag("dry-run");
    match !asked && service::locks_out(before, after) {
        true => Err(Error::of(path, format!("after this {LOCKED_OUT}; nothing was changed; --force does it"))),
        false => Ok(()),
    }
}

/// The tables of the argument FILE, to be asked and not changed.
pub fn tables(arguments: &ArgMatches) -> Result<Stored, Error> {
    store::whole_tables(file(arguments, "FILE"), defaults(arguments)?)
}

fn bytes<const N: usize>(rows: impl Iterator<Item = [u8; N]>) -> Vec<u8> {
    rows.flatten().collect()
}

/// The rows of a file, which has their bytes or their words; none where no file is named.
fn default_rows(file: Option<&Path>, read: impl Fn(&str) -> Result<Vec<u8>, String>) -> Result<Vec<u8>, Error> {
    let Some(file) = file else { return Ok(Vec::new()) };
    let bytes = store::read(file)?;
    match std::str::from_utf8(without_mark(&bytes)) {
        Ok(text) if parse::are_words(text.as_bytes()) => read(text).map_err(|error| Error::of(file, error)),
        _ => Ok(bytes),
    }
}

/// Default credential rows in words, as bytes.
fn creds_of(text: &str) -> Result<Vec<u8>, String> {
    parse::rows(text, parse::credential_row).map(|rows| bytes(rows.into_iter().map(Cred::body)))
}

/// Default access rows in words, as bytes.
fn aces_of(text: &str) -> Result<Vec<u8>, String> {
    parse::rows(text, parse::access_row).map(|rows| bytes(rows.into_iter().map(Ace::body)))
}

/// The build's default rows. Lists that the library counts as none are a mistake.
pub fn defaults(arguments: &ArgMatches) -> Result<Given, Error> {
    default_lists(path(arguments, "default-creds"), path(arguments, "default-aces"))
}

/// The default rows of these two files, and none where no file is named.
pub fn default_lists(creds: Option<&Path>, aces: Option<&Path>) -> Result<Given, Error> {
    let given = Given { creds: default_rows(creds, creds_of)?, aces: default_rows(aces, aces_of)? };
    let fresh = Terminal::with_defaults(given.clone()).tables;
    let counts = [
        (creds, given.creds.len(), fresh.creds().len() * Cred::LENGTH),
        (aces, given.aces.len(), fresh.aces().len() * Ace::LENGTH),
    ];
    for (file, length, taken) in counts {
        if length != taken {
            let message = "no list of default rows: at most two, each one that a record could store";
            return Err(Error::of(file.unwrap_or(Path::new("")), message));
        }
    }
    Ok(given)
}
