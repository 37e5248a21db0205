//! `judge`, `hand-in` and `take`: steps done on the tables of a file, which is
//! then written back.

use std::path::Path;

use answers::judge::Judged;
use answers::report::{Report, Status};
use answers::service;
use answers::steps::{Act, Make, Step};
use answers::stored::Stored;
use clap::ArgMatches;
use serde_json::json;
use tillerclover::Terminal;

use crate::arguments::{care, clock, defaults, file, not_locked_out, records};
use crate::error::{name, Error};
use crate::lock::Locked;
use crate::{names, records, store};

/// `judge FILE RECORD..`, and `hand-in FILE RECORD..`.
pub fn judge(arguments: &ArgMatches, make: Make) -> Result<Report, Error> {
    let clock = clock(arguments)?;
    let steps = records::of_arguments(&records(arguments), clock, make)?;
    on_file(arguments, clock, steps)
}

/// `take FILE [COUNT]`.
pub fn take(arguments: &ArgMatches) -> Result<Report, Error> {
    let clock = clock(arguments)?;
    let count = arguments.get_one::<u16>("COUNT").copied().unwrap_or(1);
    on_file(arguments, clock, (0..count).map(|_| Step { clock, act: Act::Take }).collect())
}

/// The steps done on a terminal, up to the first refusal if it is all or none.
fn perform(terminal: &mut Terminal, steps: Vec<Step>, all: bool) -> Vec<Judged> {
    let mut judged: Vec<Judged> = Vec::new();
    for step in steps {
        let one = Judged::new(terminal, step);
        let refused = !one.permitted();
        judged.push(one);
        if all && refused {
            break;
        }
    }
    judged
}

/// Does the steps on the tables of a file, and writes them back.
fn on_file(arguments: &ArgMatches, clock: u32, steps: Vec<Step>) -> Result<Report, Error> {
    let (path, dry, care) = (file(arguments, "FILE"), arguments.get_flag("dry-run"), care(arguments));
    let all = arguments.try_get_one("all").ok().flatten().copied().unwrap_or(false);
    let given = defaults(arguments)?;
    // What is not written needs no lock.
    let locked = if dry { None } else { Some(Locked::open(path, care.wait)?) };
    let bytes = locked.as_ref().map_or_else(|| store::read(path), Locked::read)?;
    let mut stored = Stored::whole(path, &bytes, given)?;
    names::still_agree(path, &stored.terminal.tables)?;
    let (before, count) = (stored.terminal.clone(), steps.len());
    let judged = perform(&mut stored.terminal, steps, all);
    let permitted = judged.iter().all(Judged::permitted);
    let taken_back = all && !permitted;
    if taken_back {
        stored.terminal = before.clone();
    }
    if !dry && stored.loses_waiting() {
        let message = "has no room for records that wait, by its form; nothing was changed";
        return Err(Error::of(path, message));
    }
    not_locked_out(arguments, path, [&before, &stored.terminal])?;
    let changed = stored.bytes() != bytes;
    let written = changed && !dry;
    if let Some(locked) = locked.filter(|_| written) {
        locked.replace(&stored.bytes(), care.backup)?;
    }
    let last = match (changed, written) {
        _ if taken_back => refused_of(judged.len(), count),
        (false, _) => "unchanged".into(),
        (true, true) => "written".into(),
        (true, false) => "not written, since this is a dry run".into(),
    };
    let notes = if changed { service::notes(&before, &stored.terminal) } else { Vec::new() };
    let report = report(path, clock, &judged, [changed, written], &last, &notes);
    Ok(if written { report.after_change(path) } else { report })
}

fn report(path: &Path, clock: u32, judged: &[Judged], file: [bool; 2], last: &str, notes: &[String]) -> Report {
    let [changed, written] = file;
    let said = [last].into_iter().chain(notes.iter().map(String::as_str));
    let lines = said.map(|line| format!("{}: {line}\n", name(path)));
    let json = json!({
        "file": path.display().to_string(),
        "clock": clock,
        "records": judged.iter().map(Judged::json).collect::<Vec<_>>(),
        "changed": changed,
        "notes": notes,
        "written": written,
    });
    let text = judged.iter().map(Judged::text).chain(lines).collect();
    Report::new(text, json, Status::of(judged.iter().all(Judged::permitted)))
}

/// What is reported where one of all was refused.
fn refused_of(judged: usize, count: usize) -> String {
    match count - judged {
        0 => format!("unchanged, since all of {count} are to be permitted"),
        rest => {
            format!("unchanged, since all of {count} are to be permitted; {rest} after the refusal were not judged")
        }
    }
}
