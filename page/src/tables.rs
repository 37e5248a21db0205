//! Questions about tables: what is in them, who may do what, why and when, and
//! records that are judged on them.

use std::path::Path;

use answers::error::Error;
use answers::judge::Judged;
use answers::plan::{self, Plan};
use answers::report::{Report, Status};
use answers::steps::{self, Act};
use answers::stored::{Form, Stored};
use answers::who::{self, Question};
use answers::yards::{self, Yard};
use answers::{diff, matrix, parse, service, sheet, show, when, why};
use serde_json::{json, Value};
use tillerclover::{Given, Tables, Terminal};

use crate::asked::Asked;
use crate::{only, plain, Answer};

/// A new terminal.
pub fn new() -> Answer {
    Ok((plain(String::new(), Value::Null), Some(Stored::new(Form::Terminal, Terminal::new()).bytes())))
}

/// What is in the tables, damaged or not.
pub fn show(asked: &Asked) -> Answer {
    let path = asked.path();
    let stored = Stored::of(asked.file, Given::default()).map_err(|error| Error::of(path, error))?;
    only(show::show(path, &stored, asked.clock()?))
}

/// Who may do what.
pub fn rights(asked: &Asked) -> Answer {
    only(matrix::report(asked.path(), &asked.stored()?, asked.clock()?))
}

/// Who may do one thing.
pub fn who(asked: &Asked) -> Answer {
    let verb = parse::verb(asked.text("verb")).map_err(Error::new)?;
    let resource = parse::resource(asked.text("resource")).map_err(Error::new)?;
    only(who::report(asked.path(), &asked.stored()?, Question { verb, resource, clock: asked.clock()? }))
}

/// What a record gets and why, and what it would get if the tables were others.
pub fn why(asked: &Asked) -> Answer {
    let (stored, clock, record) = (asked.stored()?, asked.clock()?, asked.record()?);
    let with: Result<Vec<_>, String> = asked.texts("with").iter().map(|text| parse::one(text)).collect();
    let plan = Plan { without: asked.numbers("without"), with: with.map_err(Error::new)? };
    let explained = why::explain(&stored.terminal, clock, &record).report(stored.start());
    only(match plan.is_empty() {
        true => explained,
        false => plan::report(explained, &stored.terminal, clock, &record, &plan),
    })
}

/// At which times a record gets which answer.
pub fn when(asked: &Asked) -> Answer {
    only(when::report(&asked.stored()?.terminal, asked.clock()?, &asked.record()?))
}

/// Lines of records, one after the other.
pub fn judge(asked: &Asked) -> Answer {
    let (mut stored, clock) = (asked.stored()?, asked.clock()?);
    let before = stored.terminal.clone();
    let steps = steps::of_lines(asked.text("lines"), clock, Act::Judge).map_err(Error::new)?;
    let judged: Vec<Judged> = steps.into_iter().map(|step| Judged::new(&mut stored.terminal, step)).collect();
    if stored.loses_waiting() {
        let message = "is of the form tables, which has no room for records that wait; nothing was changed";
        return Err(Error::of(asked.path(), message));
    }
    let bytes = stored.bytes();
    let changed = bytes != asked.file;
    let report = Report::new(
        judged.iter().map(Judged::text).collect(),
        json!({
            "clock": clock,
            "records": judged.iter().map(Judged::json).collect::<Vec<_>>(),
            "changed": changed,
            "notes": if changed { service::notes(&before, &stored.terminal) } else { Vec::new() },
        }),
        Status::of(judged.iter().all(Judged::permitted)),
    );
    Ok((report, Some(bytes)))
}

/// Whether some senders are isolated.
pub fn isolated(asked: &Asked) -> Answer {
    let list = |tables: &Tables| {
        let senders = yards::senders(asked.text("senders"), tables)?;
        Ok(vec![Yard { name: String::new(), senders }])
    };
    on_sound(asked, list, |path, stored, named| yards::isolated(path, &stored.terminal, &named[0]))
}

/// Whether yards are isolated.
pub fn yards(asked: &Asked) -> Answer {
    let list = |tables: &Tables| yards::parse(&asked.texts("yards"), tables);
    on_sound(asked, list, |path, stored, named| yards::report(path, &stored.terminal, named))
}

/// The tables must be sound, and every sender of a yard must have a credential row.
fn on_sound(
    asked: &Asked,
    list: impl Fn(&Tables) -> Result<Vec<Yard>, String>,
    report: impl Fn(&Path, &Stored, &[Yard]) -> Report,
) -> Answer {
    let (path, stored) = (asked.path(), asked.stored()?);
    if let Some(report) = show::unless_sound(path, &stored) {
        return only(report);
    }
    let named = list(&stored.terminal.tables).map_err(Error::new)?;
    yards::known(&named, &stored.terminal.tables, asked.flag("absent")).map_err(|error| Error::of(path, error))?;
    only(report(path, &stored, &named))
}

/// The sheet of rights that is printed; the page is the file.
pub fn sheet(asked: &Asked) -> Answer {
    let (path, stored, clock) = (asked.path(), asked.stored()?, asked.clock()?);
    if let Some(report) = show::unless_sound(path, &stored) {
        return only(report);
    }
    let named = yards::parse(&asked.texts("yards"), &stored.terminal.tables).map_err(Error::new)?;
    let sheet = sheet::sheet(path, &stored, clock, &named, asked.text("by"));
    Ok((plain(String::new(), Value::Null), Some(sheet.into_bytes())))
}

/// What differs between two files.
pub fn diff(asked: &Asked) -> Answer {
    let (path, other) = (asked.path(), asked.other("other")?);
    let pair = [asked.file, &other[..]].map(|bytes| Stored::of(bytes, Given::default()));
    let [one, other] = pair.map(|stored| stored.map_err(|error| Error::of(path, error)));
    only(diff::report([path, Path::new(asked.text("against"))], [&one?, &other?]))
}
