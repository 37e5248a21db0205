//! Lists of access rows: tested, made of an older terminal's list, and written as
//! the office's JSON.

use std::path::Path;

use serde_json::{json, Value};
use tillerclover::{doxm_body, pstat_body, record, Ace, Answer, Cred, OldRow, Period, Resource, State, Tested};
use tillerclover::{Permission, Subject, Terminal, Uuid, Verb, ANYONE};

use crate::error::{name, Error};
use crate::report::{self, many, Report, Status};
use crate::soundness::{ace_faults, unknown};
use crate::stored::{Form, Stored};
use crate::who::ROLES_ARE_OPEN;
use crate::{colour, csv, office, words};

/// The whole rows of a list.
pub fn rows(list: &[u8]) -> Vec<Ace> {
    list.chunks_exact(Ace::LENGTH).filter_map(Ace::from_body).collect()
}

/// What the library says of a list before it is loaded.
pub fn check(path: &Path, list: &[u8]) -> Report {
    let tested = Terminal::test_list(list);
    let Tested { answer, row } = tested;
    let reason = (!answer.is_permitted()).then(|| refusal(list, tested));
    let place = match row {
        0 => String::new(),
        _ => format!(" row {row}, at byte {}:", (row - 1) * Ace::LENGTH),
    };
    let mut text = match &reason {
        None => {
            let accepted = colour::verdict(true, "accepted");
            format!("{}: {accepted}, {}\n", name(path), many(rows(list).len(), "row"))
        }
        Some(reason) => {
            let refused = colour::verdict(false, "not accepted");
            format!("{}: {refused}, {}:{place} {reason}\n", name(path), answer.number())
        }
    };
    // What has another size may be no list at all.
    if !rows(list).is_empty() && rows(list).len() <= Ace::CAPACITY {
        let lines: Vec<String> = rows(list).iter().map(words::ace_columns).collect();
        text += &format!("\n{}", report::table(&words::ace_head(), &lines));
    }
    let open = open_roles(list);
    if !open.is_empty() {
        let numbers: Vec<String> = open.iter().map(u16::to_string).collect();
        text += &format!("\nnote: {ROLES_ARE_OPEN} Rows for roles: {}\n", numbers.join(", "));
    }
    let json = json!({
        "file": path.display().to_string(),
        "answer": words::answer_json(answer),
        "row": row,
        "reason": reason,
        "rows": rows(list).iter().map(words::ace_json).collect::<Vec<_>>(),
        "open_roles": open,
    });
    Report::new(text, json, Status::of(answer.is_permitted()))
}

/// The numbers of rows for roles, in a list of no more rows than a terminal holds.
fn open_roles(list: &[u8]) -> Vec<u16> {
    let rows = rows(list);
    let roles = rows.iter().filter(|row| rows.len() <= Ace::CAPACITY && matches!(row.subject, Subject::Role(_)));
    roles.map(|row| row.number).collect()
}

/// The first row of a list that no terminal could store, or that the list has another size. Rows that give too much can be
/// stored, and the test names the first fault of any kind: so it is asked of the rows with a right that is never too much.
pub fn not_storable(list: &[u8]) -> Option<Tested> {
    let tested = Terminal::test_list(list);
    if tested.answer != Answer::TEST_EXCESSIVE {
        return (!tested.answer.is_permitted()).then_some(tested);
    }
    let harmless = |row: Ace| Ace { permission: Permission::RETRIEVE, ..row }.body();
    let tested = Terminal::test_list(&rows(list).into_iter().flat_map(harmless).collect::<Vec<u8>>());
    (!tested.answer.is_permitted()).then_some(tested)
}

/// Why a list is not accepted.
pub fn refusal(list: &[u8], tested: Tested) -> String {
    let Tested { answer, row } = tested;
    let whole = list.len() / Ace::LENGTH;
    if answer == Answer::TEST_BAD_SIZE && Form::of(list).is_some() {
        return format!("{} bytes is the length of tables; 'list text' and 'show' take these", list.len());
    }
    if answer == Answer::TEST_BAD_SIZE {
        return match list.len() % Ace::LENGTH {
            0 => format!("{}, and a terminal holds {}", many(whole, "row"), Ace::CAPACITY),
            rest => format!(
                "it ends at byte {}, {rest} bytes into row {}; a row has {}",
                list.len(),
                whole + 1,
                Ace::LENGTH
            ),
        };
    }
    let bad = rows(list)[row - 1];
    let faults = ace_faults(&bad);
    match answer {
        Answer::TEST_EXCESSIVE => excess(&bad),
        _ if faults.is_empty() => match rows(list)[..row - 1].iter().position(|other| other.number == bad.number) {
            Some(other) => format!("repeats number {} of row {}", bad.number, other + 1),
            None => answer.to_string(),
        },
        _ => faults.join("; "),
    }
}

fn excess(row: &Ace) -> String {
    let resources: Vec<String> = row.security().map(|resource| resource.to_string()).collect();
    let too_much = Permission::CREATE | Permission::UPDATE | Permission::DELETE;
    let given = Permission(row.permission.number() & too_much.number());
    format!("gives {} {given} on {}; only a UUID may have that", words::subject(row.subject), resources.join(", "))
}

/// What came of an older terminal's list, which is made.
pub fn converted(new: &Path, file: &[u8], made: &[u8]) -> Report {
    let from = many(file.len() / OldRow::LENGTH, "row");
    let mut text = format!("{}: {} made of {from}\n", name(new), many(rows(made).len(), "row"));
    let warning = warning(made, Terminal::test_list(made));
    text += &warning.iter().map(|warning| format!("warning: {warning}\n")).collect::<String>();
    let json = json!({
        "file": new.display().to_string(),
        "answer": words::answer_json(Answer::PERMITTED),
        "rows": rows(made).iter().map(words::ace_json).collect::<Vec<_>>(),
        "warning": warning,
    });
    Report::new(text, json, Status::Yes)
}

/// What `check` would say against a list that is made.
pub fn warning(list: &[u8], tested: Tested) -> Option<String> {
    let Tested { answer, row } = tested;
    let reason = || refusal(list, tested);
    (!answer.is_permitted())
        .then(|| format!("'list check' does not accept it, {}: row {row} {}", answer.number(), reason()))
}

/// Why an older terminal's list is not converted.
pub fn not_converted(old: &Path, file: &[u8], answer: Answer) -> Report {
    let reason = match answer {
        Answer::CONVERT_BAD_FILE => bad_file(file),
        _ => format!("it becomes more than the {} rows that a terminal holds", Ace::CAPACITY),
    };
    Report::new(
        format!("{}: not converted, {}: {reason}; no file was written\n", name(old), answer.number()),
        json!({
            "file": old.display().to_string(),
            "answer": words::answer_json(answer),
            "reason": reason,
        }),
        Status::No,
    )
}

/// The first old row that the library does not convert by itself, or else the length.
fn bad_file(file: &[u8]) -> String {
    let whole = file.len() / OldRow::LENGTH;
    let bad = |row: &&[u8]| Terminal::convert_list(row).is_err();
    let Some(place) = file.chunks_exact(OldRow::LENGTH).position(|row| bad(&row)) else {
        let rest = file.len() % OldRow::LENGTH;
        return format!(
            "it ends at byte {}, {rest} bytes into row {}; a row has {}",
            file.len(),
            whole + 1,
            OldRow::LENGTH
        );
    };
    let at = place * OldRow::LENGTH;
    let row = OldRow::from_bytes(file[at..at + OldRow::LENGTH].try_into().expect("a row"));
    let what = match row.zeros {
        0 => format!("its set names unknown resources: {}", unknown(row.resources.resources())),
        _ => "a zero bit is set".into(),
    };
    format!("row {}, at byte {at}: {what}", place + 1)
}

/// The terminal of tables, or a terminal that has loaded a list; otherwise why the list is not accepted.
fn terminal(path: &Path, bytes: &[u8]) -> Result<Result<Terminal, Report>, Error> {
    if Form::of(bytes).is_some() {
        return Ok(Ok(Stored::whole(path, bytes, Default::default())?.terminal));
    }
    Ok(load(bytes).map_err(|_| check(path, bytes)))
}

/// A table of CSV of tables' access rows, or of a list that a terminal would load.
pub fn table(path: &Path, bytes: &[u8]) -> Result<Report, Error> {
    let rows = match terminal(path, bytes)? {
        Ok(terminal) => terminal.tables.aces(),
        Err(report) => return Ok(report),
    };
    let json =
        json!({ "file": path.display().to_string(), "rows": rows.iter().map(words::ace_json).collect::<Vec<_>>() });
    Ok(Report::new(csv::of_rows(&rows), json, Status::Yes))
}

/// The office text of tables, or of a list that a terminal would load.
pub fn text(path: &Path, bytes: &[u8], seasons: bool) -> Result<Report, Error> {
    let terminal = match terminal(path, bytes)? {
        Ok(terminal) => terminal,
        Err(report) => return Ok(report),
    };
    let aces = terminal.tables.aces();
    let mut left_out: Vec<u16> = aces.iter().filter(|row| row.period != Period::ALWAYS).map(|row| row.number).collect();
    let mut text = match terminal.access_list() {
        Ok(text) => text,
        Err(answer) => return Ok(no_text(path, answer)),
    };
    if seasons && !left_out.is_empty() {
        text = office::with_seasons(&aces).map_err(|error| Error::of(path, error))?;
        left_out.clear();
    }
    let notice = format!("{}: {}; --seasons writes them too", name(path), rows_left_out(&left_out));
    let list: Value = serde_json::from_str(&text).unwrap_or(Value::Null);
    let json = json!({ "file": path.display().to_string(), "list": list, "left_out": left_out });
    let mut report = Report::new(text + "\n", json, Status::Yes);
    report.notices.extend((!left_out.is_empty()).then_some(notice));
    Ok(report)
}

/// How many rows are left out, and which.
fn rows_left_out(numbers: &[u16]) -> String {
    let words: Vec<String> = numbers.iter().map(u16::to_string).collect();
    match numbers.len() {
        1 => format!("1 row with a season is left out, number {}", words.concat()),
        count => format!("{count} rows with a season are left out, numbers {}", words.join(", ")),
    }
}

fn no_text(path: &Path, answer: Answer) -> Report {
    Report::new(
        format!("{}: {}, {answer}; 'show' says why\n", name(path), answer.number()),
        json!({ "file": path.display().to_string(), "answer": words::answer_json(answer) }),
        Status::No,
    )
}

/// A terminal that has loaded the list, as its owner would; or the first refusal.
pub fn load(list: &[u8]) -> Result<Terminal, Answer> {
    let Tested { answer, .. } = Terminal::test_list(list);
    if !answer.is_permitted() {
        return Err(answer);
    }
    const OWNER: u16 = 1;
    let owner = Uuid([1; 16]);
    let row = Cred { number: OWNER, subject: owner, ..Cred::default() };
    let mut records = vec![
        record(Verb::UPDATE, Resource::CRED, ANYONE, &row.body()),
        record(Verb::UPDATE, Resource::DOXM, ANYONE, &doxm_body(owner)),
        record(Verb::UPDATE, Resource::PSTAT, OWNER, &pstat_body(State::RFPRO)),
    ];
    records.extend(rows(list).iter().map(|row| record(Verb::UPDATE, Resource::ACL2, OWNER, &row.body())));
    let mut terminal = Terminal::new();
    for record in records {
        let answer = terminal.judge(0, &record).answer;
        if !answer.is_permitted() {
            return Err(answer);
        }
    }
    Ok(terminal)
}
