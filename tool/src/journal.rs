//! `journal`: the files of a terminal's journal, read line by line and however long they
//! are, with a bar on a screen.

use std::fs::{self, File};
use std::io::{self, BufRead, BufReader, BufWriter, Write};
use std::path::{Path, PathBuf};

use answers::journal::{file_number, pieces, At, Check, Filter, Listed, Piece, Why};
use answers::parse;
use answers::report::{folded, many, Report, Status};
use answers::stored::Form;
use answers::times::{self, Day};
use clap::ArgMatches;
use tillerclover::ANYONE;

use crate::arguments::{file, force, text};
use crate::error::{name, plain, unreadable, Error};
use crate::files::{in_folder, Progress};
use crate::{screen, store};

/// So much of a file is read at once.
const ROOM: usize = 1 << 16;

/// `journal check`, `why` and `tables`.
pub fn report(part: &str, arguments: &ArgMatches) -> Result<Report, Error> {
    match part {
        "check" => check(arguments),
        "why" => why(arguments),
        _ => tables(arguments),
    }
}

fn open(path: &Path) -> Result<Box<dyn BufRead>, Error> {
    if store::is_standard(path) {
        return Ok(Box::new(BufReader::with_capacity(ROOM, store::standard()?)));
    }
    let file = File::open(path).map_err(|error| unreadable(path, &error))?;
    Ok(Box::new(BufReader::with_capacity(ROOM, file)))
}

/// Reads the lines of a file until there are no more, or `each` has seen enough.
fn lines(path: &Path, progress: &mut Progress, mut each: impl FnMut(&Piece) -> bool) -> Result<(), Error> {
    let seen = |piece: Piece| {
        if let Piece::Line(line) = &piece {
            progress.add(line.len() as u64 + 1);
        }
        each(&piece)
    };
    pieces(open(path)?, seen).map_err(|error| unreadable(path, &error))
}

/// The number that a file has in its journal, by its first line.
fn number_of(path: &Path) -> Result<Option<u64>, Error> {
    let mut number = None;
    if !store::is_standard(path) {
        lines(path, &mut Progress::new(0, ""), |piece| {
            number = if let Piece::Line(line) = piece { file_number(line) } else { None };
            false
        })?;
    }
    Ok(number)
}

/// The files of a folder that begin as a journal does. The others, among them perhaps keys, are left alone.
fn journals_in(folder: &Path) -> Result<Vec<PathBuf>, Error> {
    let mut found = Vec::new();
    for path in in_folder(folder)? {
        if number_of(&path)?.is_some() {
            found.push(path);
        }
    }
    match found.is_empty() {
        true => Err(Error::of(folder, "is a folder without a journal")),
        false => Ok(found),
    }
}

/// The files of the command in the order of the journal, as their first lines number them.
fn in_order(arguments: &ArgMatches) -> Result<Vec<PathBuf>, Error> {
    let mut files = Vec::new();
    for path in arguments.get_many::<PathBuf>("FILE").unwrap_or_default() {
        match path.is_dir() {
            true => files.extend(journals_in(path)?),
            false => files.push(path.clone()),
        }
    }
    if files.len() < 2 {
        return Ok(files);
    }
    let mut numbered: Vec<(u64, PathBuf)> = Vec::new();
    for path in files {
        numbered.push((number_of(&path)?.unwrap_or(u64::MAX), path));
    }
    // Those that name no number stay in their order, after the others.
    numbered.sort_by_key(|(number, _)| *number);
    Ok(numbered.into_iter().map(|(_, path)| path).collect())
}

/// A bar over the bytes of all files.
fn progress(files: &[PathBuf]) -> Progress {
    let length = |path: &PathBuf| fs::metadata(path).map_or(0, |data| data.len());
    Progress::new(files.iter().map(length).sum(), "{bar:40} {bytes} of {total_bytes}, {eta} left")
}

fn check(arguments: &ArgMatches) -> Result<Report, Error> {
    let files = in_order(arguments)?;
    let (mut progress, mut check) = (progress(&files), Check::default());
    for path in &files {
        check.begin_file(path);
        lines(path, &mut progress, |piece| {
            check.piece(piece);
            true
        })?;
    }
    progress.finish();
    Ok(check.report())
}

fn time(arguments: &ArgMatches, option: &str, day: Day) -> Result<Option<u32>, Error> {
    let read = |given: &str| times::read(given, day).map_err(|error| Error::new(format!("--{option}: {error}")));
    text(arguments, option).map(read).transpose()
}

fn filter(arguments: &ArgMatches) -> Result<Filter, Error> {
    let sender = text(arguments, "sender").map(|word| match word {
        "clear" => Ok(ANYONE),
        word => parse::credential(word).map_err(|error| Error::new(format!("--sender: {error}"))),
    });
    Ok(Filter {
        sender: sender.transpose()?,
        from: time(arguments, "from", Day::Begins)?,
        to: time(arguments, "to", Day::Ends)?,
        changes: arguments.get_flag("changes"),
    })
}

/// `journal show FILE..`: prints entry by entry, since there may be a million.
pub fn show(arguments: &ArgMatches, json: bool) -> Result<Status, Error> {
    let files = in_order(arguments)?;
    let (mut progress, mut listed) = (progress(&files), Listed::new(filter(arguments)?));
    let (mut out, width) = (BufWriter::new(io::stdout().lock()), screen::width());
    let mut written = Ok(());
    for path in &files {
        listed.begin_file();
        if !json && files.len() > 1 {
            written = writeln!(out, "{}:", name(path));
        }
        lines(path, &mut progress, |piece| {
            if let Some(shown) = listed.piece(piece) {
                let line = match (json, width) {
                    (true, _) => {
                        let mut object = shown.json();
                        object["file"] = path.display().to_string().into();
                        format!("{object}\n")
                    }
                    (false, Some(width)) => folded(&shown.text(), width),
                    (false, None) => shown.text(),
                };
                written = out.write_all(line.as_bytes());
            }
            written.is_ok()
        })?;
        if written.is_err() {
            break;
        }
    }
    progress.finish();
    match written.and_then(|()| out.flush()) {
        Err(error) if error.kind() != io::ErrorKind::BrokenPipe => {
            return Err(Error::new(format!("the output cannot be written: {}", plain(&error))))
        }
        _ => {}
    }
    if !json {
        told_at_last(&listed);
    }
    Ok(Status::of(listed.faults == 0))
}

/// What is told among the errors, after the entries.
fn told_at_last(listed: &Listed) {
    let tell = |line: String| {
        let _ = writeln!(io::stderr(), "tillerclover: {line}");
    };
    if listed.shown == 0 {
        tell("no such entry".into());
    }
    if listed.faults > 0 {
        let count = usize::try_from(listed.faults).unwrap_or(usize::MAX);
        tell(format!("{} from what the library answers: 'journal check' names them", many(count, "difference")));
    }
}

fn why(arguments: &ArgMatches) -> Result<Report, Error> {
    let path = file(arguments, "FILE");
    let line = arguments.get_one::<u64>("LINE").copied().unwrap_or_default();
    let (mut progress, mut why) = (progress(&[path.into()]), Why::new(path, line));
    let mut answer = None;
    lines(path, &mut progress, |piece| {
        answer = why.piece(piece);
        answer.is_none()
    })?;
    progress.finish();
    answer.unwrap_or_else(|| why.end())
}

fn tables(arguments: &ArgMatches) -> Result<Report, Error> {
    let (path, new) = (file(arguments, "FILE"), file(arguments, "output"));
    let at = time(arguments, "at", Day::Begins)?.unwrap_or_default();
    let form = Form::ALL.into_iter().find(|form| Some(form.name()) == text(arguments, "form"));
    let (mut progress, mut at) = (progress(&[path.into()]), At::new(path, at));
    lines(path, &mut progress, |piece| {
        at.piece(piece);
        true
    })?;
    progress.finish();
    let (mut report, bytes) = at.end(form.unwrap_or(Form::Terminal))?;
    store::write(new, &bytes, force(arguments))?;
    report.text += &format!("{}: written\n", name(new));
    report.json["tables"] = new.display().to_string().into();
    Ok(report.after_change(new))
}
