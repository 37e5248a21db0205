//! Entries of a journal in words and for programs, and which of them are shown.

use serde_json::{json, Value};
use tillerclover::{Answer, Header, Permission, Terminal};

use super::line::{Entry, Outcome, What, REASONS, WHYS};
use super::pieces::Piece;
use super::replay::{table_changes, Replay, Seen};
use crate::colour::verdict;
use crate::diff::Change;
use crate::judge::step_words;
use crate::{hex, names, times, words};

/// Which entries are shown.
#[derive(Clone, Debug, Default, PartialEq, Eq)]
pub struct Filter {
    /// Those of this sender alone.
    pub sender: Option<u16>,
    /// From this second on.
    pub from: Option<u32>,
    /// Up to this second.
    pub to: Option<u32>,
    /// Those alone that changed the tables.
    pub changes: bool,
}

/// An entry that is shown, with the line that it stands in.
pub struct Shown {
    /// The line of its file.
    pub line: u64,
    entry: Option<Entry>,
    changes: Vec<Change>,
    faults: Vec<String>,
}

/// A journal whose entries are shown, while it is judged again.
#[derive(Default)]
pub struct Listed {
    replay: Replay,
    filter: Filter,
    /// How much did not fit, in entries that are shown or not.
    pub faults: u64,
    /// How many entries were shown.
    pub shown: u64,
}

impl Listed {
    /// With these entries.
    pub fn new(filter: Filter) -> Listed {
        Listed { filter, ..Listed::default() }
    }

    /// The next file begins.
    pub fn begin_file(&mut self) {
        self.replay.begin_file();
    }

    /// The next line, where it is shown.
    pub fn piece(&mut self, piece: &Piece) -> Option<Shown> {
        let Seen { entry, faults, before, .. } = self.replay.piece(piece);
        self.faults += faults.len() as u64;
        let changed = before.zip(self.replay.terminal());
        if !self.filter.shows(entry.as_ref(), changed.is_some()) {
            return None;
        }
        let changes = changed.map(|(before, Terminal { tables, .. })| table_changes(&before, tables));
        self.shown += 1;
        Some(Shown { line: self.replay.line(), entry, changes: changes.unwrap_or_default(), faults })
    }
}

impl Filter {
    /// A line that cannot be read is shown unless something is asked for that it may not be.
    fn shows(&self, entry: Option<&Entry>, changed: bool) -> bool {
        let Some(entry) = entry else { return *self == Filter::default() };
        let second = entry.time.div_euclid(1000);
        !entry.keeps_the_journal()
            && self.sender.is_none_or(|sender| entry.sender() == Some(sender))
            && self.from.is_none_or(|from| second >= from.into())
            && self.to.is_none_or(|to| second <= to.into())
            && (!self.changes || changed)
    }
}

impl Entry {
    /// Whether it says nothing of the yard, but keeps the journal in order.
    fn keeps_the_journal(&self) -> bool {
        matches!(self.what, What::Begin(..) | What::Library(..) | What::Tables(_) | What::Stores(_) | What::End(_))
    }

    /// The record that it is about.
    pub fn record(&self) -> Option<&[u8]> {
        match &self.what {
            What::HandedIn(record, _) | What::TurnedAway(record, _) => Some(record),
            What::Taken(outcome) | What::Judged(outcome) => Some(&outcome.record),
            _ => None,
        }
    }

    /// The sender of its record.
    pub fn sender(&self) -> Option<u16> {
        self.record().and_then(Header::read).map(|header| header.sender)
    }

    /// Its kind, as the journal has it.
    pub fn kind(&self) -> &'static str {
        match &self.what {
            What::Begin(..) => "begin",
            What::Library(..) => "library",
            What::Started(..) => "started",
            What::Tables(_) => "tables",
            What::HandedIn(..) => "handed-in",
            What::Taken(_) => "taken",
            What::Judged(_) => "judged",
            What::Cleared => "cleared",
            What::Stores(_) => "stores",
            What::TurnedAway(..) => "turned-away",
            What::LeftOut(..) => "left-out",
            What::Torn(_) => "torn",
            What::Stopped => "stopped",
            What::End(_) => "end",
        }
    }

    /// What became of it, in a word and a short one, and what it is about.
    pub fn words(&self) -> String {
        let plain = |word: &str, rest: &str| format!("{word:<9}  {rest}");
        let (act, record, answer, permission) = match &self.what {
            What::HandedIn(record, answer) => ("hand-in", record, *answer, Permission::NONE),
            What::Taken(Outcome { record, answer, permission, .. }) => ("take", record, *answer, *permission),
            What::Judged(Outcome { record, answer, permission, .. }) => ("judge", record, *answer, *permission),
            What::Started(reason, _) => return plain("started", in_words(&REASONS, reason)),
            What::TurnedAway(record, why) => {
                return format!(
                    "{}  -----  {}: {}",
                    verdict(false, "away     "),
                    words::named_record(record),
                    in_words(&WHYS, why)
                )
            }
            What::Cleared => return plain("cleared", "the button was pressed"),
            What::LeftOut(count, _) => {
                return plain("left out", &format!("{count} entries, none of which changed the tables"))
            }
            What::Torn(count) => return plain("torn", &format!("{count} bytes of a last line were cut off")),
            What::Stopped => return plain("stopped", "the program ended in order"),
            _ => return plain(self.kind(), "").trim_end().into(),
        };
        let well = answer.is_permitted();
        let word = match (well, act) {
            (true, "hand-in") => "kept",
            (true, _) => "permitted",
            (false, _) => "refused",
        };
        let told = if well { permission.to_string() } else { format!("{:<5}", answer.number()) };
        let name = self.sender().and_then(names::of_number).map_or(String::new(), |name| format!("  # {name}"));
        format!("{}  {told}  {}{name}", verdict(well, &format!("{word:<9}")), step_words(act, record))
    }

    /// The answer and the permission that it names.
    fn answered(&self) -> Option<(Answer, Permission)> {
        match &self.what {
            What::HandedIn(_, answer) => Some((*answer, Permission::NONE)),
            What::Taken(outcome) | What::Judged(outcome) => Some((outcome.answer, outcome.permission)),
            _ => None,
        }
    }

    /// The same for programs.
    pub fn json(&self) -> Value {
        let why = match &self.what {
            What::TurnedAway(_, why) => Some(*why),
            What::Started(reason, _) => Some(*reason),
            _ => None,
        };
        let clock = match &self.what {
            What::Taken(outcome) | What::Judged(outcome) => Some(outcome.clock),
            _ => None,
        };
        json!({
            "number": self.number,
            "time": utc(self.time),
            "clock": clock,
            "kind": self.kind(),
            "sender": self.sender(),
            "record": self.record().map(hex::write),
            "words": self.record().map(words::record),
            "answer": self.answered().map(|(answer, _)| words::answer_json(answer)),
            "permission": self.answered().map(|(_, permission)| words::permission_json(permission)),
            "why": why,
        })
    }
}

fn in_words(all: &[(&str, &'static str)], word: &str) -> &'static str {
    all.iter().find(|(one, _)| *one == word).map_or("", |(_, words)| *words)
}

/// A moment in the chosen zone, with milliseconds.
pub fn moment(time: i64) -> String {
    let Ok(second) = u32::try_from(time.div_euclid(1000)) else { return utc(time) };
    let word = times::word(second);
    let (local, offset) = word.split_at(word.len().min("2026-11-18T06:12:07".len()));
    format!("{local}.{:03}{offset}", time.rem_euclid(1000))
}

/// The same in UTC, for programs.
pub fn utc(time: i64) -> String {
    let moment = chrono::NaiveDateTime::from_timestamp_millis(time);
    moment.map_or(time.to_string(), |moment| moment.format("%Y-%m-%dT%H:%M:%S%.3fZ").to_string())
}

impl Shown {
    /// For people: the line and the moment, what became of it, and below it what changed and what does not fit.
    pub fn text(&self) -> String {
        let (time, words) = match &self.entry {
            Some(entry) => (moment(entry.time), entry.words()),
            None => (String::new(), "cannot be read".into()),
        };
        let mut text = format!("{:>6}  {time:<23}  {words}\n", self.line);
        for change in &self.changes {
            text += &format!("{:33}{}\n", "", change.text());
        }
        for fault in &self.faults {
            text += &format!("{:33}{}\n", "", verdict(false, &format!("DOES NOT FIT: {fault}")));
        }
        text
    }

    /// The same for programs.
    pub fn json(&self) -> Value {
        let mut json = self.entry.as_ref().map_or_else(|| json!({ "kind": "unreadable" }), Entry::json);
        json["line"] = json!(self.line);
        json["local"] = json!(self.entry.as_ref().map(|entry| moment(entry.time)));
        json["text"] = json!(self.entry.as_ref().map(|entry| entry.words()));
        json["changes"] = self.changes.iter().map(Change::json).collect();
        json["changes_words"] = json!(self.changes.iter().map(Change::text).collect::<Vec<_>>());
        json["faults"] = json!(self.faults);
        json
    }
}
