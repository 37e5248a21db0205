//! From the command line to what does it.

use std::ffi::OsString;
use std::path::{Path, PathBuf};

use answers::plan::{self, Plan};
use answers::report::{Report, Status};
use answers::steps::Act;
use answers::who::{self, Question};
use answers::yards::{known, parse as parse_yards};
use answers::{diff, matrix, parse, seasons, sheet, show, times, why};
use clap::ArgMatches;
use serde_json::json;

use crate::arguments::{clock, defaults, file, force, path, records, tables, text, texts, wait};
use crate::error::{name, Error};
use crate::files::{self, Sum};
use crate::records::word;
use crate::store::{self, Care};
use crate::{
    boxing, default_rows, expect, journal, judge, list, manual, names, new, page, run, undo, version, watch, wire,
    yards,
};

/// What a command leaves to do.
pub enum Done {
    /// Its report is to be printed.
    Report(Report),
    /// It has printed all itself.
    Printed(Status),
}

/// Does what the command line says.
pub fn dispatch(matches: &ArgMatches) -> Result<Done, Error> {
    match matches.subcommand() {
        Some(("run", arguments)) => {
            names::choose(arguments).and_then(|()| run::file(arguments, matches.get_flag("json"))).map(Done::Printed)
        }
        Some(("record", arguments)) if arguments.get_flag("bytes") => {
            names::choose(arguments).and_then(|()| wire::bytes(arguments)).map(Done::Printed)
        }
        Some(("journal", arguments)) if arguments.subcommand_name() == Some("show") => {
            let (_, arguments) = arguments.subcommand().unwrap_or(("", arguments));
            names::choose(arguments)
                .and_then(|()| journal::show(arguments, matches.get_flag("json")))
                .map(Done::Printed)
        }
        Some(("test", arguments)) if arguments.get_flag("watch") => watch::test(arguments).map(Done::Printed),
        Some((name, arguments)) => report(name, arguments).map(Done::Report),
        None => unreachable!("clap asks for a subcommand"),
    }
}

fn report(name: &str, arguments: &ArgMatches) -> Result<Report, Error> {
    if let Some((part, arguments)) = arguments.subcommand() {
        names::choose(arguments)?;
        return match name {
            "defaults" => default_rows::defaults(part, arguments),
            "journal" => journal::report(part, arguments),
            _ => list::list(part, arguments),
        };
    }
    names::choose(arguments)?;
    match name {
        "new" => new::new(file(arguments, "FILE"), text(arguments, "form"), defaults(arguments)?, force(arguments)),
        "fresh" => boxing::fresh(arguments),
        "clear" => boxing::clear(arguments),
        "show" => {
            let clock = clock(arguments)?;
            let show = |path: &Path| Ok(show::show(path, &store::tables(path, Default::default())?, clock));
            on_each(arguments, show, &Sum { what: "file", well: "sound", not: "not" })
        }
        "judge" => judge::judge(arguments, Act::Judge),
        "hand-in" => judge::judge(arguments, Act::HandIn),
        "take" => judge::take(arguments),
        "undo" => undo::undo(file(arguments, "FILE"), wait(arguments)),
        "seasons" => seasons(arguments),
        "record" => wire::record(arguments),
        "decode" => wire::decode(arguments),
        "who" => who(arguments),
        "rights" => rights(arguments),
        "why" => explain(arguments),
        "page" => page::page(arguments),
        "isolated" => yards::isolated(arguments),
        "yards" => yards::yards(arguments),
        "test" => test(arguments),
        "completions" => manual::completions(text(arguments, "SHELL").unwrap_or_default()).map(plain),
        "man" => manual::page(&texts(arguments, "COMMAND")).map(plain),
        "diff" => compare(arguments),
        _ => unreachable!("clap knows no such command"),
    }
}

/// `test FILE..`.
pub fn test(arguments: &ArgMatches) -> Result<Report, Error> {
    let test = |file: &Path| expect::test(file, path(arguments, "names"));
    on_each(arguments, test, &Sum { what: "file", well: "met", not: "not" })
}

/// Asks about the file of a command, or about each of many.
pub fn on_each(
    arguments: &ArgMatches,
    ask: impl Fn(&Path) -> Result<Report, Error>,
    sum: &Sum,
) -> Result<Report, Error> {
    match files::one(arguments, "FILE") {
        true => ask(file(arguments, "FILE")),
        false => Ok(files::together(files::each(&files::named(arguments, "FILE")?, ask), sum)),
    }
}

/// Two files, one next to each of many, or the files of the same names in two folders.
fn compare(arguments: &ArgMatches) -> Result<Report, Error> {
    let first = file(arguments, "A");
    let two = |one: &Path, other: &Path| {
        let [left, right] = [one, other].map(|name| store::tables(name, Default::default()));
        Ok(diff::report([one, other], [&left?, &right?]))
    };
    let sum = Sum { what: "pair", well: "the same", not: "not" };
    let others: Vec<&PathBuf> = arguments.get_many("B").unwrap_or_default().collect();
    let reports = match (first.is_dir(), &others[..]) {
        (false, [other]) if !other.is_dir() => return two(first, other),
        (false, _) => files::each(&files::named(arguments, "B")?, |other| two(first, other)),
        (true, [folder]) if folder.is_dir() => {
            let names = |folder: &Path| -> Result<Vec<OsString>, Error> {
                let files = files::in_folder(folder)?;
                Ok(files.iter().filter_map(|file| file.file_name().map(OsString::from)).collect())
            };
            let mut all = [names(first)?, names(folder)?].concat();
            all.sort();
            all.dedup();
            let all: Vec<PathBuf> = all.into_iter().map(PathBuf::from).collect();
            files::each(&all, |name| two(&first.join(name), &folder.join(name)))
        }
        (true, _) => return Err(Error::of(first, "is a folder, which is compared with one other folder")),
    };
    Ok(files::together(reports, &sum))
}

/// Only a text.
fn plain(text: String) -> Report {
    let json = json!({ "text": text });
    Report::new(text, json, Status::Yes)
}

fn seasons(arguments: &ArgMatches) -> Result<Report, Error> {
    let (path, clock) = (file(arguments, "FILE"), clock(arguments)?);
    let within = text(arguments, "within").map(times::duration).transpose();
    let within = within.map_err(|error| Error::new(format!("--within: {error}")))?;
    Ok(seasons::report(path, &store::whole_tables(path, Default::default())?, clock, within))
}

fn who(arguments: &ArgMatches) -> Result<Report, Error> {
    let verb = parse::verb(text(arguments, "VERB").unwrap_or_default()).map_err(Error::new)?;
    let resource = parse::resource(text(arguments, "RESOURCE").unwrap_or_default()).map_err(Error::new)?;
    let path = file(arguments, "FILE");
    let stored = store::whole_tables(path, Default::default())?;
    Ok(who::report(path, &stored, Question { verb, resource, clock: clock(arguments)? }))
}

fn rights(arguments: &ArgMatches) -> Result<Report, Error> {
    let (path, clock) = (file(arguments, "FILE"), clock(arguments)?);
    let stored = store::whole_tables(path, Default::default())?;
    let named = parse_yards(&texts(arguments, "yard"), &stored.terminal.tables)
        .map_err(|error| Error::new(format!("--yard: {error}")))?;
    let report = matrix::report(path, &stored, clock);
    match self::path(arguments, "html") {
        Some(page) if report.status == Status::Yes => {
            let tables = &stored.terminal.tables;
            known(&named, tables, arguments.get_flag("absent")).map_err(|error| Error::of(path, error))?;
            write_page(page, sheet::sheet(path, &stored, clock, &named, &version::line()), force(arguments))
        }
        _ => Ok(report),
    }
}

/// `-` is standard output here.
fn write_page(page: &Path, text: String, replace: Option<Care>) -> Result<Report, Error> {
    let bytes = text.len();
    let json = json!({ "page": page.display().to_string(), "bytes": bytes });
    if store::is_standard(page) {
        return Ok(Report::new(text, json, Status::Yes));
    }
    store::write(page, text.as_bytes(), replace)?;
    let text = format!("{}: written\n", name(page));
    Ok(Report::new(text, json, Status::Yes).after_change(page))
}

fn explain(arguments: &ArgMatches) -> Result<Report, Error> {
    let clock = clock(arguments)?;
    let words = records(arguments).iter().map(word).collect::<Result<Vec<String>, Error>>()?;
    let records = parse::records(&words).map_err(Error::new)?;
    let [record] = &records[..] else {
        return Err(Error::new(format!("{} records; 'why' explains one", records.len())));
    };
    let with = texts(arguments, "with");
    let with: Result<Vec<_>, String> =
        with.iter().map(|text| parse::one(text).map_err(|error| format!("--with '{text}': {error}"))).collect();
    let without = arguments.get_many("without").unwrap_or_default().copied().collect();
    let plan = Plan { without, with: with.map_err(Error::new)? };
    let stored = tables(arguments)?;
    let explained = why::explain(&stored.terminal, clock, record).report(stored.start());
    match plan.is_empty() {
        true => Ok(explained),
        false => Ok(plan::report(explained, &stored.terminal, clock, record, &plan)),
    }
}
