//! The yard's names: the file that `--names` names, or the one with the tables.

use std::path::{Path, PathBuf};

use answers::names::{self, Names};
use answers::stored::Stored;
use clap::ArgMatches;
use tillerclover::Tables;

use crate::arguments::path;
use crate::error::Error;
use crate::store;

/// Chooses the names for a command, with the UUIDs of the tables that it is about.
pub fn choose(arguments: &ArgMatches) -> Result<(), Error> {
    let about =
        ["TABLES", "FILE", "A", "tables"].iter().find_map(|id| arguments.try_get_one::<PathBuf>(id).ok().flatten());
    choose_for(path(arguments, "names"), about.map(PathBuf::as_path))
}

/// Chooses the names of a file, or of the one with the tables where there is one.
pub fn choose_for(given: Option<&Path>, tables: Option<&Path>) -> Result<(), Error> {
    let Some(file) = file_for(given, tables) else {
        Names::default().choose();
        return Ok(());
    };
    let names = Names::read(&store::read_text(&file)?).map_err(|error| Error::of(&file, error))?;
    match tables.and_then(rows_of) {
        Some(tables) => names.with(&tables).map_err(|error| Error::of(&file, error))?.choose(),
        None => names.choose(),
    }
    Ok(())
}

/// The file of the names: the given one, or the one with the tables where there is one.
pub fn file_for(given: Option<&Path>, tables: Option<&Path>) -> Option<PathBuf> {
    let beside = tables
        .filter(|tables| !store::is_standard(tables))
        .map(|tables| without_number(tables).with_extension("names"));
    given.map(PathBuf::from).or_else(|| beside.filter(|file| Some(file.as_path()) != tables && file.exists()))
}

/// The name of a journal's file without its number: `yard.journal` of `yard.journal.000001`.
fn without_number(path: &Path) -> PathBuf {
    let numbered = |end: &str| end.len() == 6 && end.bytes().all(|digit| digit.is_ascii_digit());
    match path.extension().and_then(|end| end.to_str()) {
        Some(end) if numbered(end) => path.with_extension(""),
        _ => path.into(),
    }
}

/// The tables of a file, where they can be read: what is wrong with them is reported by the command itself.
fn rows_of(path: &Path) -> Option<Tables> {
    let bytes = if store::is_standard(path) || !path.is_file() { return None } else { store::read(path).ok()? };
    Stored::of(&bytes, Default::default()).ok().map(|stored| stored.terminal.tables)
}

/// Records were read with names: their UUIDs are still those of the tables, which are locked by now.
pub fn still_agree(path: &Path, tables: &Tables) -> Result<(), Error> {
    match names::agree_with(tables) {
        true => Ok(()),
        false => Err(Error::of(path, "its credential rows were changed meanwhile; nothing was changed; try again")),
    }
}
