//! A moment of a journal: why a record got what it got in a line, and the tables that
//! held at a time.

use std::path::{Path, PathBuf};

use serde_json::json;
use tillerclover::{Answer, Given, Terminal};

use super::entries::{moment, utc};
use super::line::{Entry, Outcome, What, WHYS};
use super::pieces::Piece;
use super::replay::Replay;
use crate::colour::verdict;
use crate::error::{name, Error};
use crate::report::{Report, Status};
use crate::stored::{Form, Stored};
use crate::{why, words};

/// The question why a line says what it says.
pub struct Why {
    path: PathBuf,
    line: u64,
    replay: Replay,
    /// The first line that does not fit, and how much does not.
    faults: (u64, u64),
    /// A record that was handed in by the line asked about, and waits.
    waits: Option<Entry>,
}

impl Why {
    /// About a line of a file, counted from 1.
    pub fn new(path: &Path, line: u64) -> Why {
        Why { path: path.into(), line, replay: Replay::default(), faults: (0, 0), waits: None }
    }

    /// Takes the next line of the file, and answers once it can.
    pub fn piece(&mut self, piece: &Piece) -> Option<Result<Report, Error>> {
        let before = (self.replay.line() + 1 >= self.line).then(|| self.replay.terminal().cloned()).flatten();
        let seen = self.replay.piece(piece);
        if let Some(fault) = seen.faults.first() {
            let first = if self.faults.1 == 0 { self.replay.line() } else { self.faults.0 };
            self.faults = (first, self.faults.1 + seen.faults.len() as u64);
            if self.replay.line() == self.line && seen.entry.is_none() {
                return Some(Err(self.error(fault)));
            }
        }
        let entry = seen.entry.filter(|_| self.replay.line() >= self.line)?;
        match self.waits.take() {
            Some(waits) => self.later(waits, entry, before),
            None => self.asked(entry, before),
        }
    }

    /// The file has no more lines.
    pub fn end(self) -> Result<Report, Error> {
        match &self.waits {
            Some(entry) => Ok(self.told(entry, "it waits, and was not taken in this file", Status::Yes)),
            None => Err(Error::of(&self.path, format!("has {} lines, and no line {}", self.replay.line(), self.line))),
        }
    }

    fn error(&self, what: &str) -> Error {
        Error::of(&self.path, format!("line {}: {what}", self.line))
    }

    /// The line that is asked about.
    fn asked(&mut self, entry: Entry, before: Option<Terminal>) -> Option<Result<Report, Error>> {
        let record = entry.record().map(<[u8]>::to_vec);
        Some(match (&entry.what, before) {
            (What::TurnedAway(_, reason), _) => {
                let why = WHYS.iter().find(|(word, _)| word == reason).map_or("", |(_, words)| words);
                Ok(self.told(&entry, &format!("the program did not ask the library: {why}"), Status::No))
            }
            (_, None) => Err(self.error("no line before it says what the terminal holds")),
            (What::HandedIn(_, Answer::KEPT), _) => {
                self.waits = Some(entry);
                return None;
            }
            (What::HandedIn(_, answer @ Answer::OCCUPIED), Some(terminal)) => {
                let held = terminal.waiting.slots().into_iter().find(|slot| Some(slot.sender) == entry.sender());
                let held = held.map_or("another record".into(), |slot| words::record(&slot.record));
                let why = format!("refused, {} {answer}: {held} waits", answer.number());
                Ok(self.told(&entry, &why, Status::No))
            }
            (What::HandedIn(..), Some(terminal)) => {
                // The checks of a hand-in do not look at the clock.
                Ok(self.explained(&entry, terminal, 0, &record.unwrap_or_default()))
            }
            (What::Taken(outcome) | What::Judged(outcome), Some(terminal)) => {
                Ok(self.explained(&entry, terminal, outcome.clock, &outcome.record))
            }
            _ => Err(self.error(&format!("is no record: {}", entry.words()))),
        })
    }

    /// A line after it, if a record waits.
    fn later(&mut self, waits: Entry, entry: Entry, before: Option<Terminal>) -> Option<Result<Report, Error>> {
        match (&entry.what, before) {
            (What::Taken(Outcome { clock, record, .. }), Some(terminal)) if entry.sender() == waits.sender() => {
                Some(Ok(self.explained(&entry, terminal, *clock, record)))
            }
            (What::Cleared | What::Started(..), _) => Some(Ok(self.told(
                &waits,
                "it waited, and was never taken: the terminal was cleared or started anew",
                Status::No,
            ))),
            _ => {
                self.waits = Some(waits);
                None
            }
        }
    }

    /// Where the line stands, and what it says.
    fn head(&self, entry: &Entry) -> String {
        let at =
            format!("{} line {}, {}\n{}\n", name(&self.path), self.replay.line(), moment(entry.time), entry.words());
        match self.faults {
            (_, 0) => at,
            (line, count) => {
                let what = format!("the journal does not fit here: {count} differences, the first in line {line}");
                format!("{at}{}\n", verdict(false, &what))
            }
        }
    }

    fn json(&self, entry: &Entry) -> serde_json::Value {
        json!({
            "file": self.path.display().to_string(),
            "line": self.replay.line(),
            "time": utc(entry.time),
            "local": moment(entry.time),
            "kind": entry.kind(),
            "differences": self.faults.1,
        })
    }

    /// What is told where there is nothing to explain.
    fn told(&self, entry: &Entry, what: &str, status: Status) -> Report {
        let mut json = entry.json();
        json["explained"] = json!(what);
        let json = json!({ "journal": self.json(entry), "entry": json, "why": null });
        Report::new(format!("{}\n{what}\n", self.head(entry)), json, status)
    }

    /// The explanation of the record on the tables of that moment.
    fn explained(&self, entry: &Entry, terminal: Terminal, clock: u32, record: &[u8]) -> Report {
        let explained = why::explain(&terminal, clock, record).report(0);
        let json = json!({ "journal": self.json(entry), "entry": entry.json(), "why": explained.json });
        Report { text: format!("{}\n{}", self.head(entry), explained.text), json, ..explained }
    }
}

/// The question what the terminal held at a time, or after a line.
pub struct At {
    path: PathBuf,
    until: i64,
    line: u64,
    replay: Replay,
    first: Option<i64>,
    found: Option<(u64, i64, Terminal)>,
    faults: (u64, u64),
}

impl At {
    /// At the end of this second.
    pub fn new(path: &Path, second: u32) -> At {
        At { until: i64::from(second) * 1000 + 999, ..At::after(path, u64::MAX) }
    }

    /// After this line.
    pub fn after(path: &Path, line: u64) -> At {
        let (until, replay) = (i64::MAX, Replay::default());
        At { path: path.into(), until, line, replay, first: None, found: None, faults: (0, 0) }
    }

    /// Takes the next line. The last one that is no later counts.
    pub fn piece(&mut self, piece: &Piece) {
        let seen = self.replay.piece(piece);
        let Some(entry) = &seen.entry else {
            self.faults.1 += 1;
            self.faults.0 = if self.faults.1 == 1 { self.replay.line() } else { self.faults.0 };
            return;
        };
        self.first.get_or_insert(entry.time);
        if entry.time > self.until || self.replay.line() > self.line {
            return;
        }
        if !seen.faults.is_empty() {
            self.faults.0 = if self.faults.1 == 0 { self.replay.line() } else { self.faults.0 };
            self.faults.1 += seen.faults.len() as u64;
        }
        if let Some(terminal) = self.replay.terminal() {
            // Most lines leave the tables as they are.
            match &mut self.found {
                Some((line, time, held)) if held == terminal => (*line, *time) = (self.replay.line(), entry.time),
                found => *found = Some((self.replay.line(), entry.time, terminal.clone())),
            }
        }
    }

    /// The terminal in this form, and what is told of it. A journal that does not fit up to there is status 1.
    pub fn end(self, form: Form) -> Result<(Report, Vec<u8>), Error> {
        let Some((line, time, terminal)) = self.found else {
            let first = self.first.map_or("has no entry".into(), |first| format!("begins later, at {}", moment(first)));
            return Err(Error::of(&self.path, first));
        };
        let mut text = format!("{}: the terminal after line {line}, {}\n", name(&self.path), moment(time));
        let (at, count) = self.faults;
        if count > 0 {
            let what = format!("the journal does not fit up to there: {count} differences, the first in line {at}");
            text += &format!("{}\n", verdict(false, &what));
        }
        let json = json!({
            "file": self.path.display().to_string(),
            "line": line,
            "time": utc(time),
            "differences": count,
        });
        let terminal = Terminal { defaults: Given::default(), ..terminal };
        Ok((Report::new(text, json, Status::of(count == 0)), Stored::new(form, terminal).bytes()))
    }
}
