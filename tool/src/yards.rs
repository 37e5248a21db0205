//! `isolated` and `yards`: the lists of the command line, and the tables of the
//! file that is asked about.

use answers::report::Report;
use answers::show;
use answers::stored::Stored;
use answers::yards::{self, Yard};
use clap::ArgMatches;

use crate::arguments::{file, text, texts};
use crate::error::Error;
use crate::store;

/// The tables of FILE that are sound, and otherwise why they are not.
fn tables(arguments: &ArgMatches) -> Result<Result<Stored, Report>, Error> {
    let path = file(arguments, "FILE");
    let stored = store::whole_tables(path, Default::default())?;
    Ok(match show::unless_sound(path, &stored) {
        Some(report) => Err(report),
        None => Ok(stored),
    })
}

fn known(arguments: &ArgMatches, stored: &Stored, yards: &[Yard]) -> Result<(), Error> {
    let absent = arguments.get_flag("absent");
    yards::known(yards, &stored.terminal.tables, absent).map_err(|error| Error::of(file(arguments, "FILE"), error))
}

/// `isolated FILE LIST`.
pub fn isolated(arguments: &ArgMatches) -> Result<Report, Error> {
    let stored = match tables(arguments)? {
        Ok(stored) => stored,
        Err(report) => return Ok(report),
    };
    let list = text(arguments, "LIST").unwrap_or_default();
    let senders = yards::senders(list, &stored.terminal.tables).map_err(Error::new)?;
    let yard = Yard { name: String::new(), senders };
    known(arguments, &stored, std::slice::from_ref(&yard))?;
    Ok(yards::isolated(file(arguments, "FILE"), &stored.terminal, &yard))
}

/// `yards FILE NAME=LIST..`.
pub fn yards(arguments: &ArgMatches) -> Result<Report, Error> {
    let stored = match tables(arguments)? {
        Ok(stored) => stored,
        Err(report) => return Ok(report),
    };
    let yards = yards::parse(&texts(arguments, "YARD"), &stored.terminal.tables).map_err(Error::new)?;
    known(arguments, &stored, &yards)?;
    Ok(yards::report(file(arguments, "FILE"), &stored.terminal, &yards))
}
