//! `journal check`: the chain of a journal, and every answer judged again. Each
//! difference is named with its file and line.

use std::path::{Path, PathBuf};

use serde_json::{json, Value};

use super::entries::{moment, utc};
use super::line::{Entry, What};
use super::pieces::Piece;
use super::replay::Replay;
use crate::colour::verdict;
use crate::error::{name, visible};
use crate::report::{many, Report, Status};

/// No more differences, and no more notes, are named; the rest is counted.
const NAMED: usize = 100;

/// Something to be told of a line.
struct Found {
    file: PathBuf,
    line: u64,
    what: String,
}

/// What is known of a file.
#[derive(Default)]
struct File {
    path: PathBuf,
    lines: u64,
    first: Option<(u64, i64)>,
    last: Option<(u64, i64)>,
}

/// Things to be told, of which only so many are kept.
#[derive(Default)]
struct List {
    found: Vec<Found>,
    count: u64,
}

impl List {
    fn add(&mut self, file: &Path, line: u64, what: String) {
        self.count += 1;
        if self.found.len() < NAMED {
            self.found.push(Found { file: file.into(), line, what });
        }
    }

    fn text(&self) -> String {
        let line = |one: &Found| format!("{} line {}: {}\n", name(&one.file), one.line, visible(&one.what));
        let rest = match self.count - self.found.len() as u64 {
            0 => String::new(),
            rest => format!("and {rest} more\n"),
        };
        self.found.iter().map(line).collect::<String>() + &rest
    }

    fn json(&self) -> Value {
        let one = |one: &Found| json!({ "file": one.file.display().to_string(), "line": one.line, "what": one.what });
        self.found.iter().map(one).collect()
    }
}

/// A journal that is checked.
#[derive(Default)]
pub struct Check {
    replay: Replay,
    files: Vec<File>,
    differences: List,
    notes: List,
    judged: u64,
    turned_away: u64,
    left_out: u64,
}

impl Check {
    /// The next file begins.
    pub fn begin_file(&mut self, path: &Path) {
        self.replay.begin_file();
        self.files.push(File { path: path.into(), ..File::default() });
    }

    /// Takes the next line of the file.
    pub fn piece(&mut self, piece: &Piece) {
        let seen = self.replay.piece(piece);
        let line = self.replay.line();
        let Some(file) = self.files.last_mut() else { return };
        file.lines = line;
        self.judged += u64::from(seen.judged);
        if let Some(Entry { number, time, what }) = &seen.entry {
            file.first.get_or_insert((*number, *time));
            file.last = Some((*number, *time));
            match what {
                What::TurnedAway(..) => self.turned_away += 1,
                What::LeftOut(count, _) => self.left_out = self.left_out.saturating_add(*count),
                _ => {}
            }
        }
        // How much was left out is told in the sum alone.
        let told = !matches!(seen.entry, Some(Entry { what: What::LeftOut(..), .. }));
        for fault in seen.faults {
            self.differences.add(&file.path, line, fault);
        }
        for note in seen.notes.into_iter().filter(|_| told) {
            self.notes.add(&file.path, line, note);
        }
    }

    /// What was found: status 0 where nothing differs.
    pub fn report(mut self) -> Report {
        for file in &self.files {
            if file.lines == 0 {
                self.differences.add(&file.path, 1, "the file is empty".into());
            }
        }
        let well = self.differences.count == 0;
        let mut text: String = self.files.iter().map(File::text).collect();
        text += &self.differences.text();
        for line in self.notes.text().lines() {
            text += &format!("note: {line}\n");
        }
        text += &self.sum(well);
        let json = json!({
            "files": self.files.iter().map(File::json).collect::<Vec<_>>(),
            "well": well,
            "judged": self.judged,
            "turned_away": self.turned_away,
            "left_out": self.left_out,
            "chain": self.replay.chain(),
            "differences": self.differences.json(),
            "count": self.differences.count,
            "notes": self.notes.json(),
        });
        Report::new(text, json, Status::of(well))
    }

    fn sum(&self, well: bool) -> String {
        let count = |count: u64, what: &str| many(usize::try_from(count).unwrap_or(usize::MAX), what);
        let found = match well {
            true => verdict(true, "the chain fits and all are the same"),
            false => verdict(false, &count(self.differences.count, "difference")),
        };
        let mut text = format!("{} judged again: {found}\n", count(self.judged, "answer"));
        if self.turned_away + self.left_out > 0 {
            let (away, out) = (self.turned_away, self.left_out);
            text += &format!("not judged: {away} that the program turned away, {out} that it did not write\n");
        }
        if let Some(chain) = self.replay.chain() {
            text += &format!("the last chain: {chain}\n");
        }
        text
    }
}

impl File {
    fn text(&self) -> String {
        let range = match (self.first, self.last) {
            (Some((first, from)), Some((last, to))) => {
                format!(", entries {first} to {last}, {} to {}", moment(from), moment(to))
            }
            _ => String::new(),
        };
        format!("{}: {} lines{range}\n", name(&self.path), self.lines)
    }

    fn json(&self) -> Value {
        json!({
            "file": self.path.display().to_string(),
            "lines": self.lines,
            "first": self.first.map(|(number, _)| number),
            "last": self.last.map(|(number, _)| number),
            "from": self.first.map(|(_, time)| utc(time)),
            "to": self.last.map(|(_, time)| utc(time)),
        })
    }
}
