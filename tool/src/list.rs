//! `list`: lists of access rows tested, made, converted and loaded, and the
//! office's text of them.

use std::fs;
use std::os::unix::fs::MetadataExt;
use std::path::Path;

use answers::load::{self, Load};
use answers::report::Report;
use answers::stored::Stored;
use answers::{list, parse};
use clap::ArgMatches;
use tillerclover::Terminal;

use crate::arguments::{care, clock, defaults, file, force, not_locked_out, text as text_of};
use crate::dispatch::on_each;
use crate::error::{name, Error};
use crate::files::Sum;
use crate::lock::Locked;
use crate::{names, store};

/// `list NAME ..`.
pub fn list(name: &str, arguments: &ArgMatches) -> Result<Report, Error> {
    match name {
        "check" => on_each(arguments, check, &Sum { what: "list", well: "accepted", not: "not" }),
        "convert" => convert(arguments),
        "make" => make(arguments),
        "load" => load(arguments),
        _ => text(arguments),
    }
}

fn check(path: &Path) -> Result<Report, Error> {
    Ok(list::check(path, &bytes(path)?))
}

/// The bytes of a list or of tables. A text is none, and what to do with it is reported.
fn bytes(path: &Path) -> Result<Vec<u8>, Error> {
    let bytes = store::read(path)?;
    match load::no_list(&bytes) {
        Some(what) => Err(Error::of(path, what)),
        None => Ok(bytes),
    }
}

fn text(arguments: &ArgMatches) -> Result<Report, Error> {
    let path = file(arguments, "FILE");
    match arguments.get_flag("csv") {
        true => list::table(path, &bytes(path)?),
        false => list::text(path, &bytes(path)?, arguments.get_flag("seasons")),
    }
}

/// Makes a new list of an older terminal's. A bad list leaves no file after.
fn convert(arguments: &ArgMatches) -> Result<Report, Error> {
    let (old, new) = (file(arguments, "OLD"), file(arguments, "NEW"));
    not_itself(old, new)?;
    let bytes = store::read(old)?;
    let made = match Terminal::convert_list(&bytes) {
        Ok(made) => made,
        Err(answer) => return Ok(list::not_converted(old, &bytes, answer)),
    };
    store::write(new, &made, force(arguments))?;
    Ok(list::converted(new, &bytes, &made).after_change(new))
}

/// Makes a list of words or of the office's JSON. Rows that could not be stored leave no file after.
fn make(arguments: &ArgMatches) -> Result<Report, Error> {
    let (from, new) = (file(arguments, "FROM"), file(arguments, "NEW"));
    not_itself(from, new)?;
    let made = load::read(from, &store::read_text(from)?)?;
    if let Some(report) = load::not_made(from, &made.list()) {
        return Ok(report);
    }
    store::write(new, &made.list(), force(arguments))?;
    Ok(load::made(new, &made).after_change(new))
}

/// A file is not made of itself, whatever the two names are.
pub fn not_itself(from: &Path, new: &Path) -> Result<(), Error> {
    let place = |path: &Path| fs::metadata(path).ok().map(|data| (data.dev(), data.ino()));
    if place(from).is_some() && place(from) == place(new) {
        return Err(Error::of(new, "is what the list is made of, and stays as it is; name another file"));
    }
    Ok(())
}

/// Loads a list into the tables of a file: tested, then judged row by row as this sender's records, all or nothing.
fn load(arguments: &ArgMatches) -> Result<Report, Error> {
    let (path, tables) = (file(arguments, "LIST"), file(arguments, "TABLES"));
    let (clock, dry, care) = (clock(arguments)?, arguments.get_flag("dry-run"), care(arguments));
    let sender = parse::credential(text_of(arguments, "NUMBER").unwrap_or_default()).map_err(Error::new)?;
    let list = load::list_bytes(path, store::read(path)?)?;
    if !Terminal::test_list(&list).answer.is_permitted() {
        let mut report = list::check(path, &list);
        report.text += &format!("{}: unchanged\n", name(tables));
        return Ok(report);
    }
    let given = defaults(arguments)?;
    let locked = if dry { None } else { Some(Locked::open(tables, care.wait)?) };
    let bytes = locked.as_ref().map_or_else(|| store::read(tables), Locked::read)?;
    let mut stored = Stored::whole(tables, &bytes, given)?;
    names::still_agree(tables, &stored.terminal.tables)?;
    let before = stored.terminal.clone();
    let load = Load { list: &list, sender, clock, replace: arguments.get_flag("replace") };
    let loaded = match load.into_terminal(tables, &mut stored.terminal) {
        Ok(loaded) => loaded,
        Err(report) => return Ok(report),
    };
    not_locked_out(arguments, tables, [&before, &stored.terminal])?;
    let written = stored.bytes() != bytes && !dry;
    if let Some(locked) = locked.filter(|_| written) {
        locked.replace(&stored.bytes(), care.backup)?;
    }
    let report = load::loaded(tables, &loaded, (written, dry));
    Ok(if written { report.after_change(tables) } else { report })
}
