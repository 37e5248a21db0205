//! Questions about a terminal's journal, which is the file: judged again, entry by
//! entry, why at a line, and the tables as they were after it.

use answers::error::Error;
use answers::journal::{pieces, At, Check, Filter, Listed, Piece, Why};
use answers::report::{Report, Status};
use answers::stored::Form;
use serde_json::{json, Value};

use crate::asked::Asked;
use crate::{only, Answer};

/// No answer has more entries.
const MOST: usize = 1000;

/// Reads the file line by line; what is in memory can always be read.
fn lines(asked: &Asked, mut each: impl FnMut(&Piece) -> bool) -> Result<(), Error> {
    pieces(asked.file, |piece| each(&piece)).map_err(|error| Error::of(asked.path(), error))
}

/// The chain, and every answer judged again.
pub fn check(asked: &Asked) -> Answer {
    let mut check = Check::default();
    check.begin_file(asked.path());
    lines(asked, |piece| {
        check.piece(piece);
        true
    })?;
    only(check.report())
}

/// Entries from one on, and how many there are in all; `begins` says whether the file is a journal at all, and with none asked for
/// that is all.
pub fn show(asked: &Asked) -> Answer {
    let filter = Filter { sender: asked.number("sender"), changes: asked.flag("changes"), ..Filter::default() };
    let first: usize = asked.number("first").unwrap_or(0);
    let many = asked.number("many").unwrap_or(MOST).min(MOST);
    let (mut listed, mut place, mut begins) = (Listed::new(filter), 0, false);
    let (mut entries, mut text): (Vec<Value>, String) = Default::default();
    lines(asked, |piece| {
        begins |= place == 0 && entries.is_empty() && begins_journal(piece);
        if let Some(shown) = listed.piece(piece) {
            if (first..first.saturating_add(many)).contains(&place) {
                entries.push(shown.json());
                text += &shown.text();
            }
            place += 1;
        }
        // A file that is no journal is read no further, nor one of which no entry is asked for.
        begins && many > 0
    })?;
    let json =
        json!({ "begins": begins, "entries": entries, "first": first, "all": place, "differences": listed.faults });
    only(Report::new(text, json, Status::of(begins && listed.faults == 0)))
}

fn begins_journal(piece: &Piece) -> bool {
    matches!(piece, Piece::Line(line) if answers::journal::file_number(line).is_some())
}

fn line(asked: &Asked) -> Result<u64, Error> {
    asked.number("line").ok_or_else(|| Error::new("which line?"))
}

/// Why the record of a line got what it got.
pub fn why(asked: &Asked) -> Answer {
    let (mut why, mut answer) = (Why::new(asked.path(), line(asked)?), None);
    lines(asked, |piece| {
        answer = why.piece(piece);
        answer.is_none()
    })?;
    answer.unwrap_or_else(|| why.end()).and_then(only)
}

/// The terminal after a line, or as the journal ends; the file is its tables.
pub fn tables(asked: &Asked) -> Answer {
    let mut at = At::after(asked.path(), asked.number("line").unwrap_or(u64::MAX));
    lines(asked, |piece| {
        at.piece(piece);
        true
    })?;
    let (report, bytes) = at.end(Form::Terminal)?;
    Ok((report, Some(bytes)))
}
