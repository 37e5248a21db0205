//! Lists of access rows made of words or of the office's JSON, and loaded into a
//! terminal as a sender's records, all or nothing.

use std::path::Path;

use serde_json::json;
use tillerclover::{record, Ace, Answer, Resource, Terminal, Verb};

use crate::diff::{changes, Change};
use crate::error::{name, Error};
use crate::list::{not_storable, refusal, rows, warning};
use crate::report::{many, Report, Status};
use crate::stored::without_mark;
use crate::why::explain;
use crate::{colour, csv, office, parse, service, words};

/// Rows that were read, and how many have a season by the extension of the office's JSON.
pub struct Read {
    /// The rows.
    pub rows: Vec<Ace>,
    /// How many of them have a season.
    pub seasons: usize,
}

impl Read {
    /// The bytes of the list.
    pub fn list(&self) -> Vec<u8> {
        self.rows.iter().flat_map(|row| row.body()).collect()
    }
}

/// The office's JSON, a table of CSV, or rows in words, one to a line.
pub fn read(path: &Path, text: &str) -> Result<Read, Error> {
    if text.trim_start().starts_with('{') {
        let (rows, seasons) = office::read(text).map_err(|error| Error::of(path, error))?;
        return Ok(Read { rows, seasons });
    }
    let read = if csv::is_table(text) { csv::rows(text) } else { parse::rows(text, parse::access_row) };
    let rows = read.map_err(|error| Error::of(path, error))?;
    Ok(Read { rows, seasons: 0 })
}

/// Why no list is made of rows: there are too many, or one could not be stored.
pub fn not_made(from: &Path, list: &[u8]) -> Option<Report> {
    let tested = not_storable(list)?;
    let row = if tested.row == 0 { String::new() } else { format!("row {}: ", tested.row) };
    let reason = format!("{row}{}", refusal(list, tested));
    let text = format!("{}: not made, {}: {reason}; no file was written\n", name(from), tested.answer.number());
    let json =
        json!({ "file": from.display().to_string(), "answer": words::answer_json(tested.answer), "reason": reason });
    Some(Report::new(text, json, Status::No))
}

/// What came of rows that were made a list.
pub fn made(new: &Path, made: &Read) -> Report {
    let list = made.list();
    let mut text = format!("{}: {} made\n", name(new), many(made.rows.len(), "row"));
    if made.seasons > 0 {
        text += &format!(
            "note: {} by first and last, which are no part of the office's own form\n",
            many(made.seasons, "season")
        );
    }
    let warning = warning(&list, Terminal::test_list(&list));
    text += &warning.iter().map(|warning| format!("warning: {warning}\n")).collect::<String>();
    let json = json!({
        "file": new.display().to_string(),
        "rows": made.rows.iter().map(words::ace_json).collect::<Vec<_>>(),
        "seasons": made.seasons,
        "warning": warning,
    });
    Report::new(text, json, Status::Yes)
}

/// The bytes of a list, which may also be the office's JSON, a table of CSV or rows in words.
pub fn list_bytes(path: &Path, bytes: Vec<u8>) -> Result<Vec<u8>, Error> {
    match std::str::from_utf8(without_mark(&bytes)) {
        Ok(text) if is_json(text) || csv::is_table(text) || parse::are_words(text.as_bytes()) => {
            Ok(read(path, text)?.list())
        }
        _ => Ok(bytes),
    }
}

/// Whether a text is the office's JSON.
pub fn is_json(text: &str) -> bool {
    text.trim_start().starts_with('{') && text.trim_end().ends_with('}')
}

/// What to do with a text where a list of bytes is asked for.
pub fn no_list(bytes: &[u8]) -> Option<&'static str> {
    let text = std::str::from_utf8(without_mark(bytes)).ok()?;
    let what = match text {
        _ if is_json(text) => {
            "is the office's JSON, and no list of bytes: 'list make' makes one, and 'list load' takes it as it is"
        }
        _ if csv::is_table(text) => {
            "is a table of CSV, and no list of bytes: 'list make' makes one, and 'list load' takes it as it is"
        }
        _ if parse::are_words(text.as_bytes()) => {
            "has rows in words, and is no list of bytes: 'list make' makes one, and 'list load' takes it as it is"
        }
        _ => return None,
    };
    Some(what)
}

/// A list that is to be loaded, and how.
pub struct Load<'a> {
    /// The rows that the library accepts.
    pub list: &'a [u8],
    /// Whose records they are.
    pub sender: u16,
    /// The terminal's clock.
    pub clock: u32,
    /// Whether all access rows go before.
    pub replace: bool,
}

impl Load<'_> {
    /// What came of it. After a refusal the terminal is as it was, and the report says why.
    pub fn into_terminal(&self, tables: &Path, terminal: &mut Terminal) -> Result<Loaded, Report> {
        let before = terminal.clone();
        match self.store_rows(terminal) {
            Ok(()) => Ok(Loaded {
                changes: changes(&before, terminal),
                count: rows(self.list).len(),
                notes: service::notes(&before, terminal),
            }),
            Err(refused) => {
                let notes = explain(terminal, self.clock, &refused.record).notes;
                *terminal = before;
                Err(not_loaded(tables, refused, &notes))
            }
        }
    }

    fn store_rows(&self, terminal: &mut Terminal) -> Result<(), Refused> {
        let all = self.replace.then(|| record(Verb::DELETE, Resource::ACL2, self.sender, &[]));
        let one = |row: Ace| record(Verb::UPDATE, Resource::ACL2, self.sender, &row.body());
        for record in all.into_iter().chain(rows(self.list).into_iter().map(one)) {
            let answer = terminal.judge(self.clock, &record).answer;
            if !answer.is_permitted() {
                return Err(Refused { record, answer });
            }
        }
        Ok(())
    }
}

/// What came of a list that was loaded.
pub struct Loaded {
    /// What differs afterwards.
    pub changes: Vec<Change>,
    /// How many rows it has.
    pub count: usize,
    /// What is to be reported of the terminal afterwards.
    pub notes: Vec<String>,
}

/// A record that was refused.
struct Refused {
    record: Vec<u8>,
    answer: Answer,
}

fn not_loaded(tables: &Path, refused: Refused, notes: &[String]) -> Report {
    let Refused { record, answer } = refused;
    let refused = colour::verdict(false, "refused");
    let lines: String = notes.iter().map(|note| format!("  {note}\n")).collect();
    let text = format!(
        "{refused}, {} {answer}: {}\n{lines}{}: unchanged; 'why' says more\n",
        answer.number(),
        words::record(&record),
        name(tables)
    );
    let json = json!({
        "file": tables.display().to_string(),
        "answer": words::answer_json(answer),
        "words": words::record(&record),
        "notes": notes,
        "written": false,
    });
    Report::new(text, json, Status::No)
}

/// What came of a list that was loaded, and whether the tables were written.
pub fn loaded(tables: &Path, loaded: &Loaded, (written, dry): (bool, bool)) -> Report {
    let Loaded { changes, count, notes } = loaded;
    let last = match (written, dry) {
        (true, _) => "written",
        (false, true) => "not written, since this is a dry run",
        (false, false) => "unchanged",
    };
    let lines: String = changes.iter().map(|change| format!("  {}\n", change.text())).collect();
    let notes_lines: String = notes.iter().map(|note| format!("{}: {note}\n", name(tables))).collect();
    let text = format!(
        "{} loaded, each as a record that was permitted\n{lines}{}: {last}\n{notes_lines}",
        many(*count, "row"),
        name(tables)
    );
    let json = json!({
        "file": tables.display().to_string(),
        "answer": words::answer_json(Answer::PERMITTED),
        "rows": count,
        "changes": changes.iter().map(Change::json).collect::<Vec<_>>(),
        "notes": notes,
        "written": written,
    });
    Report::new(text, json, Status::Yes)
}
