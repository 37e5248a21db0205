//! A journal judged again, line by line: does the chain fit, are the lines in their
//! order, and does the library give the same answers and the same bytes?

use sha2::{Digest, Sha256};
use tillerclover::interface::{self, REPLY_MAX};
use tillerclover::yards::identity;
use tillerclover::{Answer, Given, Permission, Tables, Terminal};

use super::line::{read, Chain, Entry, Memory, Outcome, What, ZEROS};
use super::pieces::Piece;
use crate::diff::{changes, Change};
use crate::{hex, words};

/// What was seen in a line.
#[derive(Default)]
pub struct Seen {
    /// What it says, where it could be read.
    pub entry: Option<Entry>,
    /// What does not fit, each in a sentence.
    pub faults: Vec<String>,
    /// What is worth knowing, and no fault.
    pub notes: Vec<String>,
    /// Whether the library was asked for an answer.
    pub judged: bool,
    /// The tables before, where they are others after it.
    pub before: Option<Box<Tables>>,
}

/// A journal that is being judged again.
#[derive(Default)]
pub struct Replay {
    terminal: Option<Terminal>,
    given: Given,
    room: usize,
    /// The identity of another library that was told last.
    library: Option<u64>,
    /// The chain of the line before; none if that line could not be read.
    chain: Option<Chain>,
    /// The number of the entry that is due.
    number: Option<u64>,
    file: Option<u64>,
    /// How many lines of the file were seen.
    lines: u64,
    last: Last,
    /// Whether a program was started, and has not ended in order since.
    running: bool,
    /// The tables at the last two stores, starts or clears: the newer one last.
    stored: [Option<Box<Tables>>; 2],
}

/// What the line before was.
#[derive(Clone, Copy, Default, PartialEq, Eq)]
enum Last {
    #[default]
    Other,
    Library,
    End,
}

impl Replay {
    /// The terminal as it is after the lines so far, where it is known.
    pub fn terminal(&self) -> Option<&Terminal> {
        self.terminal.as_ref()
    }

    /// How many lines of the file were seen.
    pub fn line(&self) -> u64 {
        self.lines
    }

    /// The chain of the last line.
    pub fn chain(&self) -> Option<&str> {
        self.chain.as_ref().and_then(|chain| std::str::from_utf8(chain).ok())
    }

    /// The next file begins.
    pub fn begin_file(&mut self) {
        self.lines = 0;
    }

    /// Takes the next line.
    pub fn piece(&mut self, piece: &Piece) -> Seen {
        self.lines += 1;
        let read = match piece {
            Piece::Line(line) => read(line),
            other => Err(other.fault().unwrap_or_default()),
        };
        let mut seen = Seen::default();
        match read {
            Err(fault) => {
                seen.faults.push(fault);
                (self.chain, self.number, self.last) = (None, None, Last::Other);
            }
            Ok(line) => {
                self.place(&line.entry, &mut seen);
                self.follow(&line.entry.what, line.text, line.chain, &mut seen);
                self.apply(&line.entry.what, &mut seen);
                self.last = match &line.entry.what {
                    What::Library(..) => Last::Library,
                    // A start after a power cut says so between the two.
                    What::Torn(_) => self.last,
                    What::End(_) => Last::End,
                    _ => Last::Other,
                };
                seen.entry = Some(line.entry);
            }
        }
        seen
    }

    /// Whether the line may stand here, and has the number that is due.
    fn place(&mut self, entry: &Entry, seen: &mut Seen) {
        let begins = matches!(entry.what, What::Begin(..));
        if begins != (self.lines == 1) {
            let fault = if begins { "a 'begin' within a file" } else { "the first line of a file is no 'begin'" };
            seen.faults.push(fault.into());
        }
        if self.lines == 2 && !matches!(entry.what, What::Library(..)) {
            seen.faults.push("no 'library' follows the 'begin'".into());
        }
        if matches!(entry.what, What::Started(..)) && self.last != Last::Library {
            seen.faults.push("no 'library' stands before the 'started'".into());
        }
        if self.lines > 1 && self.last == Last::End {
            seen.faults.push("a line after the 'end' of the file".into());
        }
        if let Some(due) = self.number.filter(|due| *due != entry.number) {
            seen.faults.push(format!("its number is {}, and {due} is due", entry.number));
        }
        self.number = entry.number.checked_add(1);
    }

    /// Whether the chain fits to the line before.
    fn follow(&mut self, what: &What, text: &str, chain: Chain, seen: &mut Seen) {
        if let What::Begin(file, previous) = what {
            self.begin(*file, *previous, seen);
        }
        if let Some(before) = self.chain {
            let mut sum = Sha256::new();
            sum.update(before);
            sum.update(b" ");
            sum.update(text.as_bytes());
            if hex::write(&sum.finalize()).as_bytes() != chain {
                let fault =
                    "the chain does not fit: this line was changed, or one before it was changed, put in or left out";
                seen.faults.push(fault.into());
            }
        }
        self.chain = Some(chain);
    }

    /// The first line of a file names the one before.
    fn begin(&mut self, file: u64, previous: Chain, seen: &mut Seen) {
        if let Some(last) = self.file {
            if last.checked_add(1) != Some(file) {
                seen.faults.push(format!("it is file {file}, after file {last}"));
            } else if self.chain.is_some_and(|chain| chain != previous) {
                seen.faults.push("it does not go on with the last line of the file before".into());
            }
        }
        if file == 1 && previous != ZEROS {
            seen.faults.push("file 1 names a line before it".into());
        }
        (self.file, self.chain) = (Some(file), Some(previous));
    }

    /// Does what the line says, and compares.
    fn apply(&mut self, what: &What, seen: &mut Seen) {
        match what {
            What::Library(of, room, given) => self.library(*of, *room, given, seen),
            What::Started(reason, memory) => self.started(reason, memory, seen),
            What::Tables(memory) => self.tables(memory, seen),
            What::HandedIn(record, answer) => self.handed_in(record, *answer, seen),
            What::Taken(outcome) => self.judged(outcome, true, seen),
            What::Judged(outcome) => self.judged(outcome, false, seen),
            What::Cleared => self.cleared(seen),
            What::Stores(sum) => self.stores(sum, seen),
            What::LeftOut(count, waiting) => {
                seen.notes.push(format!("entries that were not written: {count}"));
                let Some(terminal) = self.known(seen) else { return };
                for held in
                    [&terminal.waiting, waiting].map(|waiting| waiting.count()).into_iter().filter(|held| *held != 0)
                {
                    seen.faults.push(format!("records wait here: {held}, and none should"));
                }
                terminal.waiting = (**waiting).clone();
            }
            What::Torn(count) => seen.notes.push(format!("a line was torn, and {count} bytes were cut off")),
            What::End(file) => {
                if self.file.is_some_and(|own| own != *file) {
                    seen.faults.push(format!("it ends file {file}, and this is another"));
                }
            }
            What::Stopped => self.running = false,
            What::Begin(..) | What::TurnedAway(..) => {}
        }
    }

    /// The terminal, where a line before has said what it holds.
    fn known(&mut self, seen: &mut Seen) -> Option<&mut Terminal> {
        if self.terminal.is_none() {
            seen.faults.push("no line before it says what the terminal holds".into());
        }
        self.terminal.as_mut()
    }

    fn library(&mut self, of: u64, room: u64, given: &Given, seen: &mut Seen) {
        let own = identity();
        if of != own && self.library.replace(of) != Some(of) {
            seen.notes.push(format!("the journal is of library {of}, and this one is {own}: it may judge otherwise"));
        }
        // No reply is longer.
        self.room = usize::try_from(room).map_or(REPLY_MAX, |room| room.min(REPLY_MAX));
        self.given = given.clone();
        if let Some(terminal) = &mut self.terminal {
            terminal.defaults = given.clone();
        }
    }

    fn started(&mut self, reason: &str, memory: &Memory, seen: &mut Seen) {
        if self.running {
            seen.notes.push("the program before was killed, or lost its power".into());
        }
        self.running = true;
        let held = self.terminal.as_ref().map(|terminal| terminal.tables);
        let fresh = Terminal::with_defaults(self.given.clone()).tables;
        let [before_last, _] = &self.stored;
        let fault = match reason {
            "new" => differs(&fresh, &memory.tables, "a new terminal's"),
            "same" => held.and_then(|held| differs(&held, &memory.tables, "those that the journal ended with")),
            "unstored" => {
                before_last.as_ref().and_then(|old| differs(old, &memory.tables, "those before the last change"))
            }
            "other" => Some("the terminal was started with other tables than the journal ended with".into()),
            "damaged" if memory.tables.to_bytes() != [0xff; Tables::SIZE] => {
                Some("the store could not be read, and the tables are not those that say so".into())
            }
            _ => None,
        };
        seen.faults.extend(fault);
        if reason == "damaged" {
            seen.notes.push("the store could not be read".into());
        }
        seen.before = held.filter(|held| *held != memory.tables).map(Box::new);
        self.hold(memory);
    }

    /// Takes what a line says that the terminal holds.
    fn hold(&mut self, memory: &Memory) {
        let Memory { tables, waiting } = memory.clone();
        self.stored = [None, Some(Box::new(tables))];
        self.terminal = Some(Terminal { tables, waiting, defaults: self.given.clone() });
    }

    fn tables(&mut self, memory: &Memory, seen: &mut Seen) {
        let Some(terminal) = &self.terminal else { return self.hold(memory) };
        let other = Terminal { tables: memory.tables, waiting: memory.waiting.clone(), defaults: self.given.clone() };
        if let Some(first) = changes(terminal, &other).first() {
            seen.faults.push(format!("the terminal is another than the lines before give: {}", first.text()));
        } else if *terminal != other {
            seen.faults.push("the terminal is another than the lines before give, in bytes that mean nothing".into());
        }
        self.terminal = Some(other);
    }

    fn handed_in(&mut self, record: &[u8], answer: Answer, seen: &mut Seen) {
        let Some(terminal) = self.known(seen) else { return };
        let own = terminal.hand_in(record);
        seen.judged = true;
        if own != answer {
            seen.faults.push(format!("the journal says {}, and the library answers {}", told(answer), told(own)));
        }
    }

    /// A record that is taken, or judged at once.
    fn judged(&mut self, said: &Outcome, taken: bool, seen: &mut Seen) {
        let (mut reply, room) = ([0; REPLY_MAX], self.room);
        let Some(Terminal { tables, waiting, defaults }) = self.known(seen) else { return };
        let (before, lent) = (*tables, defaults.lent());
        let (answer, permission) = if taken {
            let own = interface::take(tables, waiting, lent, said.clock, &mut reply[..room]);
            let record = &own.record[..own.record_length];
            if record != said.record {
                seen.faults.push(another(&said.record, record));
            }
            (own.outcome.answer, own.outcome.permission)
        } else {
            let own = interface::judge(tables, waiting, lent, said.clock, &said.record, &mut reply[..room]);
            (own.answer, own.permission)
        };
        seen.judged = true;
        if (answer, permission) != (said.answer, said.permission) {
            let [journal, library] = [(said.answer, said.permission), (answer, permission)].map(outcome);
            seen.faults.push(format!("the journal says {journal}, and the library answers {library}"));
        }
        seen.before = (before != *tables).then(|| Box::new(before));
    }

    fn cleared(&mut self, seen: &mut Seen) {
        let Some(terminal) = self.known(seen) else { return };
        let before = terminal.tables;
        terminal.clear();
        seen.before = (before != terminal.tables).then(|| Box::new(before));
    }

    fn stores(&mut self, sum: &Chain, seen: &mut Seen) {
        let Some(terminal) = self.known(seen) else { return };
        let tables = terminal.tables;
        if hex::write(&Sha256::digest(tables.to_bytes())).as_bytes() != sum {
            seen.faults.push("other tables are stored than the lines before give: their sum is another".into());
        }
        let [_, newer] = std::mem::take(&mut self.stored);
        self.stored = [newer, Some(Box::new(tables))];
    }
}

/// What the tables of a start are not, with the first difference.
fn differs(from: &Tables, to: &Tables, what: &str) -> Option<String> {
    if from == to {
        return None;
    }
    let first = table_changes(from, to).first().map_or("in bytes that mean nothing".into(), Change::text);
    Some(format!("the tables are not {what}: {first}"))
}

/// What differs between tables, beside whatever waits.
pub fn table_changes(from: &Tables, to: &Tables) -> Vec<Change> {
    let [from, to] = [from, to].map(|tables| Terminal { tables: *tables, ..Terminal::new() });
    changes(&from, &to)
}

fn told(answer: Answer) -> String {
    format!("{} {answer}", answer.number())
}

fn outcome((answer, permission): (Answer, Permission)) -> String {
    match permission.is_empty() {
        true => told(answer),
        false => format!("{}, {permission}", told(answer)),
    }
}

/// That another record is taken than the journal says.
fn another(said: &[u8], own: &[u8]) -> String {
    let own = if own.is_empty() { "none".into() } else { words::record(own) };
    format!("the journal says that {} was taken, and the library takes {own}", words::record(said))
}
