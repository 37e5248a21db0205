//! Many files in one command: those of folders too, a line for each and a sum at
//! the end, and on a screen how far it is.

use std::fs;
use std::io::{self, IsTerminal};
use std::path::{Path, PathBuf};
use std::time::{Duration, Instant};

use answers::report::{many, Report, Status};
use clap::ArgMatches;
use indicatif::{ProgressBar, ProgressDrawTarget, ProgressStyle};
use serde_json::{json, Value};

use crate::error::{unreadable, Error};

/// What takes no longer has no bar.
const PATIENCE: Duration = Duration::from_secs(1);

/// The files that an argument names, those of folders in the order of their names.
pub fn named(arguments: &ArgMatches, id: &str) -> Result<Vec<PathBuf>, Error> {
    let mut files = Vec::new();
    for path in arguments.get_many::<PathBuf>(id).unwrap_or_default() {
        match path.is_dir() {
            true => files.extend(in_folder(path)?),
            false => files.push(path.clone()),
        }
    }
    Ok(files)
}

/// Whether one file is named, and no folder.
pub fn one(arguments: &ArgMatches, id: &str) -> bool {
    let mut paths = arguments.get_many::<PathBuf>(id).unwrap_or_default();
    paths.len() == 1 && paths.next().is_some_and(|path| !path.is_dir())
}

/// The files of a folder except for hidden ones, those that a change kept, and names.
pub fn in_folder(folder: &Path) -> Result<Vec<PathBuf>, Error> {
    let unread = |error: io::Error| unreadable(folder, &error);
    let mut files = Vec::new();
    for entry in fs::read_dir(folder).map_err(unread)? {
        let path = entry.map_err(unread)?.path();
        let name = path.file_name().unwrap_or_default().to_string_lossy().into_owned();
        if path.is_file() && !name.starts_with('.') && !name.ends_with('~') && !name.ends_with(".names") {
            files.push(path);
        }
    }
    files.sort();
    match files.is_empty() {
        true => Err(Error::of(folder, "is a folder without files")),
        false => Ok(files),
    }
}

/// What is done with each file, with a bar where it takes longer than a second and a screen shows it.
pub fn each<T>(files: &[PathBuf], mut act: impl FnMut(&Path) -> T) -> Vec<T> {
    let mut progress = Progress::new(files.len() as u64, "{bar:40} {pos} of {len}, {eta} left");
    let mut done = Vec::with_capacity(files.len());
    for file in files {
        done.push(act(file));
        progress.add(1);
    }
    progress.finish();
    done
}

/// How far something is, shown by a bar where it takes longer than a second and a screen shows it.
pub struct Progress {
    begun: Instant,
    watched: bool,
    template: &'static str,
    bar: Option<ProgressBar>,
    total: u64,
    done: u64,
    /// How far it was when the clock was looked at.
    looked: u64,
}

impl Progress {
    /// Of so many, shown so.
    pub fn new(total: u64, template: &'static str) -> Progress {
        let watched = total > 0 && io::stderr().is_terminal();
        Progress { begun: Instant::now(), watched, template, bar: None, total, done: 0, looked: 0 }
    }

    /// So many more are done.
    pub fn add(&mut self, more: u64) {
        self.done += more;
        // The clock is looked at a thousand times at most.
        if !self.watched || self.done < self.looked + self.total / 1000 {
            return;
        }
        self.looked = self.done;
        if self.bar.is_none() && self.begun.elapsed() > PATIENCE {
            self.bar = Some(new_bar(self.total, self.template));
        }
        if let Some(bar) = &self.bar {
            bar.set_position(self.done);
        }
    }

    /// All is done, and the bar goes.
    pub fn finish(self) {
        if let Some(bar) = self.bar {
            bar.finish_and_clear();
        }
    }
}

fn new_bar(length: u64, template: &str) -> ProgressBar {
    let bar = ProgressBar::new(length);
    bar.set_draw_target(ProgressDrawTarget::stderr());
    if let Ok(style) = ProgressStyle::with_template(template) {
        bar.set_style(style);
    }
    bar
}

/// The words for how many are well, and how many are not.
pub struct Sum {
    /// What is counted.
    pub what: &'static str,
    /// Those that are well.
    pub well: &'static str,
    /// The others.
    pub not: &'static str,
}

/// One report of many: the first part of each, up to an empty line, and a sum. Status 0 where all are well.
pub fn together(reports: Vec<Result<Report, Error>>, sum: &Sum) -> Report {
    let well = reports.iter().filter(|one| matches!(one, Ok(report) if report.status == Status::Yes)).count();
    let count = reports.len();
    let mut text = String::new();
    let mut parts: Vec<Value> = Vec::new();
    for report in reports {
        match report {
            Ok(report) => {
                text += report.text.split("\n\n").next().unwrap_or_default().trim_end();
                parts.push(report.json);
            }
            Err(error) => {
                text += &error.to_string();
                parts.push(error.json());
            }
        }
        text.push('\n');
    }
    text += &format!("{}, {well} {}, {} {}\n", many(count, sum.what), sum.well, count - well, sum.not);
    let json = json!({ "files": parts, "well": well, "not": count - well });
    Report::new(text, json, Status::of(well == count))
}
