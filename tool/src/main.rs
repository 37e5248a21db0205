//! The command `tillerclover`: reads the command line, does what it says and ends
//! with the exit status that the help names.

#![forbid(unsafe_code)]

use std::env;
use std::io::{self, Write};
use std::process::ExitCode;

use answers::colour;
use answers::report::{folded, set_width, Report, Status};
use answers::times::{self, Zone};
use clap::error::ErrorKind;
use clap::ArgMatches;
use tillerclover::yards::identified;
use tool::arguments::text;
use tool::command::command;
use tool::dispatch::{dispatch, Done};
use tool::error::{plain, Error, Kind};
use tool::{screen, version};

fn main() -> ExitCode {
    let matches = match command().try_get_matches() {
        Ok(matches) => matches,
        Err(error) => return usage(&error),
    };
    let json = matches.get_flag("json");
    if !identified() {
        return fail(&Error::new("the archive and the command are not of one build"), json);
    }
    let done = settings(&matches).and_then(|()| dispatch(&matches)).and_then(|done| match done {
        Done::Report(report) => print(&report, json),
        Done::Printed(status) => Ok(status),
    });
    match done {
        Ok(Status::Yes) => ExitCode::SUCCESS,
        Ok(Status::No) => ExitCode::from(1),
        Err(error) => fail(&error, json),
    }
}

fn settings(matches: &ArgMatches) -> Result<(), Error> {
    colour::switch(screen::colours(text(matches, "color").unwrap_or("auto")));
    set_width(screen::width());
    times::set_now(screen::now());
    let named = |name: &str, zone: &str| zone.parse().map_err(|error| Error::new(format!("{name}: {error}")));
    let zone: Zone = match (text(matches, "tz"), env::var("TILLERCLOVER_TZ")) {
        (Some(zone), _) => named("--tz", zone)?,
        (None, Ok(zone)) if !zone.is_empty() => named("TILLERCLOVER_TZ", &zone)?,
        // The system's variable has forms of its own, which are no mistake.
        _ => env::var("TZ").ok().and_then(|zone| zone.trim_start_matches(':').parse().ok()).unwrap_or(Zone::UTC),
    };
    zone.choose();
    Ok(())
}

/// What clap has to say: help and version, or what is wrong with the arguments.
fn usage(error: &clap::Error) -> ExitCode {
    let asked = matches!(error.kind(), ErrorKind::DisplayHelp | ErrorKind::DisplayVersion);
    if !asked && env::args_os().any(|argument| argument == "--json") {
        let message = error.to_string();
        return fail(&Error::new(message.trim_start_matches("error: ").trim_end()), true);
    }
    if error.kind() == ErrorKind::DisplayVersion && env::args_os().any(|argument| argument == "--json") {
        let version = Report::new(String::new(), version::json(), Status::Yes);
        return print(&version, true).map_or(ExitCode::from(2), |_| ExitCode::SUCCESS);
    }
    let printed = match screen::width() {
        Some(width) if asked => write!(io::stdout(), "{}", folded(&error.to_string(), width)),
        _ => error.print(),
    };
    match printed {
        Err(error) if error.kind() != io::ErrorKind::BrokenPipe => ExitCode::from(2),
        _ => ExitCode::from(if asked { 0 } else { 2 }),
    }
}

fn fail(error: &Error, json: bool) -> ExitCode {
    let line = if json { error.json().to_string() } else { format!("tillerclover: {error}") };
    // There is nowhere left to report that nothing can be reported.
    let _ = writeln!(io::stderr(), "{line}");
    ExitCode::from(error.kind.status())
}

fn print(report: &Report, json: bool) -> Result<Status, Error> {
    if !json {
        for notice in &report.notices {
            let _ = writeln!(io::stderr(), "tillerclover: {notice}");
        }
    }
    let text = match (json, screen::width()) {
        (true, _) => format!("{:#}\n", report.json),
        (false, Some(width)) => folded(&report.text, width),
        (false, None) => report.text.clone(),
    };
    let written = io::stdout().write_all(text.as_bytes()).and_then(|()| io::stdout().flush());
    let written = if screen::output_is_closed() { Err(io::ErrorKind::BrokenPipe.into()) } else { written };
    match (written, &report.changed) {
        // A reader that has seen enough is no error, except for the report of a change.
        (Err(error), None) if error.kind() == io::ErrorKind::BrokenPipe => Ok(report.status),
        (Err(error), None) => Err(Error::new(format!("the output cannot be written: {}", plain(&error)))),
        (Err(error), Some(file)) => {
            let message = format!("WAS changed, but the output cannot be written: {}", plain(&error));
            Err(Error { kind: Kind::Unreported, ..Error::of(file, message) })
        }
        (Ok(()), _) => Ok(report.status),
    }
}
