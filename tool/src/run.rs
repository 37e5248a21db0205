//! `run`: a run of records from fresh tables, as the run program reads it, each
//! line in words beside its numbers.

use std::fs::File;
use std::io::{self, BufRead, BufReader, BufWriter, IsTerminal, LineWriter, Read, Write};
use std::path::Path;
use std::time::{Duration, Instant};

use answers::judge::{perform, step_words};
use answers::report::Status;
use answers::steps::{self, Act, Step};
use answers::{hex, words};
use clap::ArgMatches;
use indicatif::{ProgressBar, ProgressDrawTarget, ProgressStyle};
use serde_json::json;
use tillerclover::{Response, Terminal};

use crate::error::{plain, unreadable, Error};
use crate::store::is_standard;
use crate::{arguments, store};

/// The run program reads no more.
pub const LIMIT: u64 = 32_768;
/// A run that takes no longer has no progress bar.
const PATIENCE: Duration = Duration::from_secs(1);

/// What comes next in a run.
enum Next {
    Step(Step),
    /// The input ends within a record that begins at this byte.
    Cut {
        begin: u64,
        end: u64,
    },
    End,
}

/// A run as it is read.
struct Input<R> {
    reader: R,
    at: u64,
}

impl<R: Read> Input<R> {
    /// As many bytes as there are, up to that many.
    fn take(&mut self, many: usize) -> io::Result<Vec<u8>> {
        let mut bytes = Vec::with_capacity(many);
        self.reader.by_ref().take(many as u64).read_to_end(&mut bytes)?;
        self.at += bytes.len() as u64;
        Ok(bytes)
    }

    fn next(&mut self) -> io::Result<Next> {
        let begin = self.at;
        let before = self.take(6)?;
        let &[a, b, c, d, high, low] = &before[..] else {
            return Ok(if before.is_empty() { Next::End } else { Next::Cut { begin, end: self.at } });
        };
        let length = usize::from(u16::from_be_bytes([high, low]));
        let record = self.take(length)?;
        if record.len() < length {
            return Ok(Next::Cut { begin, end: self.at });
        }
        Ok(Next::Step(Step { clock: u32::from_be_bytes([a, b, c, d]), act: Act::Judge(record) }))
    }
}

/// Where the steps of a run come from.
enum Source<R> {
    /// Clocks, lengths and records.
    Bytes(Input<R>),
    /// Lines that were read before.
    Steps(std::vec::IntoIter<Step>),
}

impl<R: Read> Source<R> {
    fn next(&mut self) -> io::Result<Next> {
        match self {
            Source::Bytes(input) => input.next(),
            Source::Steps(steps) => Ok(steps.next().map_or(Next::End, Next::Step)),
        }
    }

    fn at(&self) -> u64 {
        match self {
            Source::Bytes(input) => input.at,
            Source::Steps(_) => 0,
        }
    }
}

/// `run FILE`: writes line by line.
pub fn file(arguments: &ArgMatches, json: bool) -> Result<Status, Error> {
    let name = arguments::file(arguments, "FILE");
    let given = arguments::defaults(arguments)?;
    let terminal = match arguments::path(arguments, "tables") {
        Some(tables) => store::whole_tables(tables, given)?.terminal,
        None => Terminal::with_defaults(given),
    };
    let (source, length) = source(name, arguments)?;
    let out: Box<dyn Write> = match io::stdout().is_terminal() {
        true => Box::new(LineWriter::new(io::stdout())),
        false => Box::new(BufWriter::new(io::stdout())),
    };
    match run_from(source, terminal, &Shown { json, length }, out) {
        Ok(status) => Ok(status),
        Err(Fault::Output(error)) if error.kind() == io::ErrorKind::BrokenPipe => Ok(Status::Yes),
        Err(Fault::Output(error)) => Err(Error::new(format!("the output cannot be written: {}", plain(&error)))),
        Err(Fault::Input(error)) => Err(unreadable(name, &error)),
    }
}

/// What keeps a run from its end.
#[derive(Debug)]
pub enum Fault {
    /// It cannot be read on.
    Input(io::Error),
    /// The result cannot be reported.
    Output(io::Error),
}

impl From<io::Error> for Fault {
    fn from(error: io::Error) -> Fault {
        Fault::Output(error)
    }
}

fn source(name: &Path, arguments: &ArgMatches) -> Result<(Source<impl Read>, Option<u64>), Error> {
    if arguments.get_flag("lines") {
        let text = store::read_text(name)?;
        let steps = steps::of_lines(&text, arguments::clock(arguments)?, Act::Judge);
        return Ok((Source::Steps(steps.map_err(|error| Error::of(name, error))?.into_iter()), None));
    }
    let (mut reader, mut length) = opened(name)?;
    if !arguments.get_flag("whole") {
        reader = Box::new(reader.take(LIMIT));
        if let Some(length) = length.filter(|&length| length > LIMIT) {
            let note =
                format!("has {length} bytes; the first {LIMIT} are read, as the run program does; --whole reads all");
            let _ = writeln!(io::stderr(), "tillerclover: {}: {note}", crate::error::name(name));
        }
        length = length.map(|length| length.min(LIMIT));
    }
    let mut reader = BufReader::new(reader);
    if is_text(reader.fill_buf().map_err(|error| unreadable(name, &error))?) {
        return Err(Error::of(
            name,
            "is a text, and no run of clocks, lengths and records; --lines reads one record to a line",
        ));
    }
    Ok((Source::Bytes(Input { reader, at: 0 }), length))
}

/// Whether a run begins as a text does. The first byte of a run is that of a clock.
fn is_text(begin: &[u8]) -> bool {
    let begin = &begin[..begin.len().min(256)];
    let letter = |byte: &u8| byte.is_ascii_graphic() || byte.is_ascii_whitespace();
    begin.len() >= 12 && begin.iter().all(letter)
}

/// A file or standard input, with its length where that is known.
fn opened(name: &Path) -> Result<(Box<dyn Read>, Option<u64>), Error> {
    if is_standard(name) {
        return Ok((Box::new(store::standard()?), None));
    }
    let unread = |error: io::Error| unreadable(name, &error);
    let file = File::open(name).map_err(unread)?;
    let data = file.metadata().map_err(unread)?;
    if data.is_dir() {
        return Err(Error::of(name, "cannot be read: is a directory"));
    }
    Ok((Box::new(file), data.is_file().then_some(data.len())))
}

/// How a run is shown.
pub struct Shown {
    /// A line of JSON for each record.
    pub json: bool,
    /// How many bytes the run has, where that is known.
    pub length: Option<u64>,
}

/// Runs the records; fails where input or output does.
pub fn run(reader: impl Read, terminal: Terminal, shown: &Shown, out: impl Write) -> Result<Status, Fault> {
    run_from(Source::Bytes(Input { reader, at: 0 }), terminal, shown, out)
}

fn run_from<R: Read>(
    mut source: Source<R>,
    mut terminal: Terminal,
    shown: &Shown,
    out: impl Write,
) -> Result<Status, Fault> {
    let mut out = Output { out, meter: Meter::new(shown.length) };
    if !shown.json {
        out.line("n answer perm state")?;
    }
    for n in 1u64.. {
        match source.next().map_err(Fault::Input)? {
            Next::End => break,
            Next::Cut { begin, end } => {
                out.line(&cut(shown.json, begin, end))?;
                out.end()?;
                return Ok(Status::No);
            }
            Next::Step(step) => {
                let line = line(n, &mut terminal, step, shown.json);
                out.meter.at(source.at());
                out.line(line.trim_end())?;
            }
        }
    }
    out.end()?;
    Ok(Status::Yes)
}

/// Does a step, and says what came of it.
fn line(n: u64, terminal: &mut Terminal, step: Step, json: bool) -> String {
    let clock = step.clock;
    let (act, record, response) = perform(terminal, step);
    let (Response { answer, permission, .. }, state) = (&response, terminal.tables.state());
    if json {
        return json!({
            "n": n,
            "act": act,
            "clock": clock,
            "record": hex::write(&record),
            "words": words::record(&record),
            "answer": words::answer_json(*answer),
            "permission": words::permission_json(*permission),
            "state": state.number(),
        })
        .to_string();
    }
    let numbers = format!("{n} {} {} {}", answer.number(), permission.number(), state.number());
    let told = match (answer.is_permitted(), act) {
        (true, "hand-in") => "kept".into(),
        (true, _) => format!("{answer} {permission}"),
        (false, _) => answer.to_string(),
    };
    format!("{numbers:14}  {state:6}  {told:42}  {}", step_words(act, &record))
}

fn cut(json: bool, begin: u64, end: u64) -> String {
    if json {
        json!({ "cut": { "begin": begin, "end": end } }).to_string()
    } else {
        format!("cut             the run ends at byte {end}, within a record that begins at byte {begin}")
    }
}

/// Lines, above a bar where there is one.
struct Output<W> {
    out: W,
    meter: Meter,
}

impl<W: Write> Output<W> {
    fn line(&mut self, line: &str) -> io::Result<()> {
        let out = &mut self.out;
        match &self.meter.bar {
            // A bar on the same screen makes room for the line.
            Some(bar) => bar.suspend(|| writeln!(out, "{line}").and_then(|()| out.flush())),
            None => writeln!(out, "{line}"),
        }
    }

    fn end(&mut self) -> io::Result<()> {
        if let Some(bar) = &self.meter.bar {
            bar.finish_and_clear();
        }
        self.out.flush()
    }
}

/// Shows how far the run is, once it has taken longer than a second, on a terminal.
struct Meter {
    begun: Instant,
    length: Option<u64>,
    watched: bool,
    bar: Option<ProgressBar>,
}

impl Meter {
    fn new(length: Option<u64>) -> Meter {
        Meter { begun: Instant::now(), length, watched: io::stderr().is_terminal(), bar: None }
    }

    fn at(&mut self, byte: u64) {
        if self.bar.is_none() && self.watched && self.begun.elapsed() > PATIENCE {
            self.bar = Some(bar(self.length));
        }
        if let Some(bar) = &self.bar {
            bar.set_position(byte);
        }
    }
}

fn bar(length: Option<u64>) -> ProgressBar {
    let (bar, form) = match length {
        Some(length) => (ProgressBar::new(length), "{bar:40} {bytes} of {total_bytes}, {eta} left"),
        None => (ProgressBar::new_spinner(), "{spinner} {bytes}"),
    };
    bar.set_draw_target(ProgressDrawTarget::stderr());
    if let Ok(style) = ProgressStyle::with_template(form) {
        bar.set_style(style);
    }
    bar.enable_steady_tick(Duration::from_millis(200));
    bar
}
