//! `test --watch`: expectations tested again whenever a file of them, of tables or of
//! names changes.

use std::fs;
use std::io::{self, Write};
use std::path::PathBuf;
use std::thread;
use std::time::{Duration, SystemTime};

use answers::report::Status;
use answers::times;
use clap::ArgMatches;

use crate::arguments::path;
use crate::error::{plain, Error};
use crate::{dispatch, expect, files, screen};

/// How often files are looked at.
const PAUSE: Duration = Duration::from_millis(300);

/// What a file was when it was looked at: its time and its length.
type Seen = Vec<(PathBuf, Option<SystemTime>, u64)>;

/// Tests until the command is ended, or until nobody reads what it says.
pub fn test(arguments: &ArgMatches) -> Result<Status, Error> {
    let mut seen: Option<Seen> = None;
    loop {
        let now = look(arguments)?;
        if seen.as_ref() != Some(&now) {
            seen = Some(now);
            times::set_now(screen::now());
            let said = match dispatch::test(arguments) {
                Ok(report) => report.text,
                Err(error) => format!("{error}\n"),
            };
            let time = times::now().map(times::word).unwrap_or_default();
            match writeln!(io::stdout(), "{said}-- {time}, watching").and_then(|()| io::stdout().flush()) {
                Err(error) if error.kind() == io::ErrorKind::BrokenPipe => return Ok(Status::Yes),
                Err(error) => return Err(Error::new(format!("the output cannot be written: {}", plain(&error)))),
                Ok(()) => {}
            }
        }
        thread::sleep(PAUSE);
    }
}

/// The files of expectations, and the tables and names that they are about.
fn look(arguments: &ArgMatches) -> Result<Seen, Error> {
    let mut paths = files::named(arguments, "FILE")?;
    let tables: Vec<PathBuf> = paths.iter().filter_map(|path| expect::tables_of(path)).collect();
    paths.extend(tables.iter().map(|tables| tables.with_extension("names")));
    paths.extend(tables);
    paths.extend(path(arguments, "names").map(PathBuf::from));
    let seen = |path: PathBuf| {
        let data = fs::metadata(&path).ok();
        let time = data.as_ref().and_then(|data| data.modified().ok());
        (path, time, data.map_or(0, |data| data.len()))
    };
    Ok(paths.into_iter().map(seen).collect())
}
