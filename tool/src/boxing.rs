//! `fresh` and `clear`, for the end of the maker's line: files that hold a new
//! terminal and nothing else, and a record of each for its box.

use std::fs::{self, File, OpenOptions};
use std::io::{self, Read, Seek, SeekFrom, Write};
use std::path::{Path, PathBuf};
use std::thread;
use std::time::{Duration, Instant};

use answers::fresh::{self, Found};
use answers::report::{many, Report, Status};
use answers::stored::{Form, Stored};
use answers::times;
use clap::ArgMatches;
use serde_json::json;
use sha2::{Digest, Sha256};
use tillerclover::{Given, FORMAT, INTERFACE_MAJOR, INTERFACE_MINOR};

use crate::arguments::{defaults, path, text, wait};
use crate::error::{name, plain, Error, Kind};
use crate::lock::Locked;
use crate::store::{backup_path, sync_folder};
use crate::system::{lock_among_tools, Lock};
use crate::{files, store, version};

/// The columns of a record for the box.
const COLUMNS: [&str; 9] = ["serial", "date", "file", "form", "library", "archive", "defaults", "image", "verdict"];

/// `fresh FILE..`.
pub fn fresh(arguments: &ArgMatches) -> Result<Report, Error> {
    let (given, mut paths) = (defaults(arguments)?, files::named(arguments, "FILE")?);
    let (record, serial) = (path(arguments, "record"), text(arguments, "serial"));
    // The records may be kept in the folder of the files.
    let own = record.and_then(|record| fs::canonicalize(record).ok());
    paths.retain(|file| own.is_none() || own != fs::canonicalize(file).ok());
    if serial.is_some() && paths.len() > 1 {
        return Err(Error::new(format!("--serial names one terminal, and there are {} files", paths.len())));
    }
    let date = record.map(|_| times::now().map(times::utc).map_err(Error::new)).transpose()?.unwrap_or_default();
    let seen = files::each(&paths, |file| look(file, &given));
    let found: Vec<Found> = seen.iter().map(|(found, _)| found.clone()).collect();
    let report = fresh::report(&found);
    let Some(log) = record else { return Ok(report) };
    let lines: Vec<[String; 9]> = seen.iter().map(|(found, image)| line(found, image, &given, &date, serial)).collect();
    append(log, &written(log, &lines)?, wait(arguments))?;
    let text = format!("{}{}: {} added\n", report.text, name(log), many(lines.len(), "record"));
    Ok(Report { text, ..report }.after_change(log))
}

/// What a file holds, and the sum of its bytes.
fn look(file: &Path, given: &Given) -> (Found, String) {
    match store::read(file) {
        Ok(bytes) => (fresh::look(file, &bytes, given), sum(&bytes)),
        Err(error) => (fresh::unread(file, &error), String::new()),
    }
}

/// The SHA-256 of bytes, in digits.
pub fn sum(bytes: &[u8]) -> String {
    answers::hex::write(&Sha256::digest(bytes))
}

/// The record of a file for its box.
fn line(found: &Found, image: &str, given: &Given, date: &str, serial: Option<&str>) -> [String; 9] {
    let stem = found.file.file_stem().unwrap_or_default().to_string_lossy().into_owned();
    let verdict = match &found.left {
        None => found.verdict().to_string(),
        Some(left) => format!("{}: {left}", found.verdict()),
    };
    // A length before each list tells where it ends.
    let rows = [&(given.creds.len() as u32).to_be_bytes()[..], &given.creds, &given.aces].concat();
    [
        serial.map_or(stem, String::from),
        date.into(),
        found.file.display().to_string(),
        found.form.map(Form::name).unwrap_or_default().into(),
        format!("interface {INTERFACE_MAJOR}.{INTERFACE_MINOR}, format {FORMAT:02}"),
        version::ARCHIVE.into(),
        sum(&rows),
        image.into(),
        verdict,
    ]
}

/// Lines in the form of the file's name: CSV, or JSON with an object in each line.
fn written(log: &Path, lines: &[[String; 9]]) -> Result<(Option<String>, String), Error> {
    let csv = |line: &[String; 9]| line.each_ref().map(|cell| answers::csv::cell(cell)).join(",") + "\n";
    let object = |line: &[String; 9]| {
        let fields = COLUMNS.iter().zip(line).map(|(key, value)| (key.to_string(), json!(value)));
        serde_json::Value::Object(fields.collect()).to_string() + "\n"
    };
    match log.extension().and_then(|extension| extension.to_str()) {
        Some("csv") => Ok((Some(COLUMNS.join(",") + "\n"), lines.iter().map(csv).collect())),
        Some("jsonl" | "json") => Ok((None, lines.iter().map(object).collect())),
        _ => Err(Error::of(log, "is neither .csv nor .jsonl, which say how records are written; nothing was written")),
    }
}

/// Appends lines to a file, whole or not at all: locked, after a line that a power cut may have left, and synced.
fn append(log: &Path, (head, lines): &(Option<String>, String), wait: Duration) -> Result<(), Error> {
    let unwritten =
        |error: io::Error| Error::of(log, format!("cannot be written: {}; no record was added", plain(&error)));
    let new = !log.exists();
    let mut file = OpenOptions::new().read(true).append(true).create(true).open(log).map_err(unwritten)?;
    locked(log, &file, wait)?;
    let before = file.metadata().map_err(unwritten)?.len();
    let mut bytes = match (before, head) {
        (0, Some(head)) => head.clone(),
        _ => String::new(),
    };
    if before > 0 && !ends_a_line(&mut file).map_err(unwritten)? {
        bytes.push('\n');
    }
    bytes += lines;
    let done = file.write_all(bytes.as_bytes()).and_then(|()| file.sync_all());
    if let Err(error) = done {
        let taken_back = file.set_len(before).and_then(|()| file.sync_all());
        return Err(match taken_back {
            Ok(()) => unwritten(error),
            Err(_) => Error::of(log, format!("cannot be written: {}; its last lines are not whole", plain(&error))),
        });
    }
    let confirmed = if new { sync_folder(log) } else { Ok(()) };
    confirmed.map_err(|error| {
        let message = format!("WAS changed, but a power cut may take it back: {}", plain(&error));
        Error { kind: Kind::Unreported, ..Error::of(log, message) }
    })
}

fn ends_a_line(file: &mut File) -> io::Result<bool> {
    let mut last = [0];
    file.seek(SeekFrom::End(-1))?;
    file.read_exact(&mut last)?;
    Ok(last == *b"\n")
}

/// Waits for the lock that runs of this command hold on a file of records.
fn locked(log: &Path, file: &File, wait: Duration) -> Result<(), Error> {
    let begun = Instant::now();
    loop {
        match lock_among_tools(file) {
            Ok(Lock::Held | Lock::Unsupported) => return Ok(()),
            Err(error) => {
                return Err(Error::of(log, format!("cannot be locked: {}; no record was added", plain(&error))))
            }
            Ok(Lock::Refused) if begun.elapsed() >= wait => {
                let message = "another tillerclover is adding to it; no record was added";
                return Err(Error { kind: Kind::InUse, ..Error::of(log, message) });
            }
            Ok(Lock::Refused) => thread::sleep(Duration::from_millis(20)),
        }
    }
}

/// `clear FILE..`: nothing of what a file held is kept.
pub fn clear(arguments: &ArgMatches) -> Result<Report, Error> {
    let (given, wait) = (defaults(arguments)?, wait(arguments));
    let paths = files::named(arguments, "FILE")?;
    let done: Vec<(PathBuf, Result<(), Error>)> =
        files::each(&paths, |file| (file.to_path_buf(), clear_one(file, &given, wait)));
    let cleared = done.iter().filter(|(_, result)| result.is_ok()).count();
    let mut text: String = String::new();
    let mut parts = Vec::new();
    for (file, result) in &done {
        let error = result.as_ref().err();
        text += &match error {
            None => format!("{}: cleared\n", name(file)),
            Some(error) => format!("{error}\n"),
        };
        parts.push(json!({ "file": file.display().to_string(), "cleared": error.is_none(), "why": error.map(|error| &error.message) }));
    }
    text += &format!("{}, {cleared} cleared, {} not\n", many(done.len(), "file"), done.len() - cleared);
    let json = json!({ "files": parts, "cleared": cleared, "not": done.len() - cleared });
    let report = Report::new(text, json, Status::of(cleared == done.len()));
    Ok(match done.iter().find(|(_, result)| result.is_ok()) {
        Some((file, _)) => report.after_change(file),
        None => report,
    })
}

fn clear_one(file: &Path, given: &Given, wait: Duration) -> Result<(), Error> {
    let locked = Locked::open(file, wait)?;
    let stored = Stored::of(&locked.read()?, given.clone()).map_err(|error| Error::of(file, error))?;
    locked.replace(&stored.cleared(given.clone()).bytes(), false)?;
    // The file that an earlier change kept has what is to be cleared.
    let kept = backup_path(file);
    match fs::remove_file(&kept) {
        Err(error) if error.kind() != io::ErrorKind::NotFound => {
            let message = format!("was cleared, but {} is still there: {}", name(&kept), plain(&error));
            Err(Error { kind: Kind::Unreported, ..Error::of(file, message) })
        }
        _ => Ok(()),
    }
}
