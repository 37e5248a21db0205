//! The others alone (demand 3), as a run of calls: a terminal to which all send,
//! and the book, which is fed only the records of the others.

use std::collections::BTreeMap;

use crate::answers::{NOTHING_WAITING, NOT_SOUND, PERMITTED};
use crate::case::{Call, Case, Seen};
use crate::defaults::Defaults;
use crate::generate::{any_bytes, any_queue, any_sound, capacity, clock, defaults, queue, record, Style};
use crate::isolation::{ask, list_of, lists, sender_of, Reason, Sender};
use crate::queue::{seat, Queue, QueueBytes, Seat};
use crate::random::Random;
use crate::tables::{TableBytes, Tables};

/// That many calls has a run at most.
const CALLS: usize = 60;

/// How the terminal answers a call: as the model does, or as the library.
pub type Judge = fn(&Case) -> Seen;

/// What a record's sender gets, in bytes.
type Told = (u8, u8, Vec<u8>, Vec<u8>, (usize, usize, u8), (u64, usize));

/// What came of the calls of runs.
#[derive(Clone, Copy, Debug, Default)]
pub struct Counts {
    pub runs: u64,
    /// From tables or a queue that are not sound.
    pub unsound: u64,
    /// Records of the others that were judged, and of the chosen.
    pub others: u64,
    pub chosen: u64,
    /// Those of them that had waited.
    pub taken: u64,
    /// Runs at whose end records wait or the round is somewhere: neither is compared.
    pub waiting: u64,
    /// Runs whose tables differ at the end, in roles that the chosen asserted.
    pub asserted: u64,
}

/// The two sides of a run.
struct Run {
    judge: Judge,
    /// Whether a call is left out after which the book's tables would not meet the premise.
    premised: bool,
    chosen: Vec<u8>,
    defaults: Defaults,
    tables: TableBytes,
    queue: QueueBytes,
    /// What was handed in or waited at the start, byte for byte as it was then, the newest of each sender.
    handed: BTreeMap<Seat, Vec<u8>>,
    book: TableBytes,
}

/// The premise for these senders; tables that are not sound need none.
fn premise(book: &TableBytes, chosen: &[u8]) -> bool {
    [0, Reason::NotSound as u8].contains(&ask(book, chosen).reason)
}

/// The tables without the roles that these partners asserted; nothing of tables that are not sound is left out.
pub fn compared(stored: &TableBytes, partners: &[u8]) -> TableBytes {
    let Ok(mut tables) = Tables::read(stored) else { return *stored };
    let theirs = tables.credentials.iter_mut().filter(|row| lists(partners, Some(row.number)));
    theirs.for_each(|row| row.asserted.clear());
    tables.bytes()
}

fn told(seen: &Seen, record: &[u8]) -> Told {
    let payload = record[seen.payload.clone()].to_vec();
    let reply = seen.buffer[..seen.reply].to_vec();
    let store = (seen.store_first, seen.store_count, seen.store_table);
    (seen.answer, seen.permission, payload, reply, store, (seen.links, seen.link_count))
}

impl Run {
    /// From tables of any content, with any queue; the chosen are some of those who may be, none or all.
    fn new(random: &mut Random, judge: Judge, premised: bool) -> Run {
        let any_content = random.chance(15);
        let mut start = senders(random, any_content, premised);
        for _ in 0..20 {
            if start.1.is_empty() {
                start = senders(random, any_content, premised);
            }
        }
        let (tables, mut chosen) = start;
        let percent = random.pick(&[0, 60, 100]);
        chosen.retain(|_| random.chance(percent));
        let queue = if any_content { any_queue(random, &tables) } else { sound_queue(random, &tables) };
        let (handed, chosen, defaults) = (waiting(&tables, &queue), list_of(&chosen), defaults(random));
        Run { judge, premised, chosen, defaults, tables, queue, handed, book: tables }
    }

    /// A call of any kind.
    fn case(&self, random: &mut Random) -> Case {
        let clock = clock(random, &self.tables);
        let call = random.weighted(&[(4, Call::HandIn), (4, Call::Take), (3, Call::Judge)]);
        let style = random.weighted(&[(6, Style::Purposeful), (5, Style::Mixed), (1, Style::Damaged)]);
        let sent = if call == Call::Take { Vec::new() } else { record(random, style, &self.tables, clock) };
        let (queue, defaults) = (self.queue.clone(), self.defaults.clone());
        let mut case = Case { call, queue, clock, defaults, ..Case::new(&self.tables, &sent) };
        case.capacity = capacity(random, &case);
        case
    }

    /// The record that the call judged, by its bytes when it was handed in; none with 1 or 27.
    fn judged(&self, case: &Case, seen: &Seen) -> Option<Vec<u8>> {
        match case.call {
            _ if [NOT_SOUND, NOTHING_WAITING].contains(&seen.answer) => None,
            Call::HandIn => None,
            Call::Judge => Some(case.record.clone()),
            Call::Take => Some(self.handed.get(&seat(&seen.record)).cloned().unwrap_or_default()),
        }
    }

    /// Makes a call. What differs between the two sides is an error.
    fn call(&mut self, case: &Case, counts: &mut Counts) -> Result<(), String> {
        let seen = (self.judge)(case);
        if let Some(record) = self.judged(case, &seen) {
            let chosen = lists(&self.chosen, sender_of(&record));
            if !chosen && !self.feed(case, &seen, &record)? {
                return Ok(());
            }
            *(if chosen { &mut counts.chosen } else { &mut counts.others }) += 1;
            counts.taken += u64::from(case.call == Call::Take);
        }
        if case.call == Call::HandIn && seen.answer == PERMITTED {
            self.handed.insert(seat(&case.record), case.record.clone());
        }
        (self.tables, self.queue) = seen.after();
        Ok(())
    }

    /// Feeds the book a record of the others; false where it is left out for the premise.
    fn feed(&mut self, case: &Case, seen: &Seen, record: &[u8]) -> Result<bool, String> {
        let (call, queue) = (Call::Judge, QueueBytes::empty());
        let fed = Case { call, queue, tables: self.book, record: record.to_vec(), ..case.clone() };
        let book = fed.expected();
        if self.premised && !premise(&book.tables, &self.chosen) {
            return Ok(false);
        }
        let handed_out = if case.call == Call::Take { &seen.record } else { &case.record };
        if told(seen, handed_out) != told(&book, record) {
            return Err(format!("{}\nthe book is told otherwise:\n{}", case.line(), fed.line()));
        }
        self.book = book.tables;
        Ok(true)
    }

    fn end(&self, counts: &mut Counts) -> Result<(), String> {
        counts.waiting += u64::from(self.queue != QueueBytes::empty());
        counts.asserted += u64::from(self.tables != self.book);
        match compared(&self.tables, &self.chosen) == compared(&self.book, &self.chosen) {
            true => Ok(()),
            false => Err("the tables differ at the end".into()),
        }
    }
}

/// Tables, sound ones or of any content, and who may be chosen there: who meets the premise or needs none, also without a row.
fn senders(random: &mut Random, any_content: bool, premised: bool) -> (TableBytes, Vec<Sender>) {
    let tables = if any_content { any_bytes(random) } else { any_sound(random).bytes() };
    let mut senders: Vec<Sender> = vec![None, Some(9)];
    senders.extend(Tables::read(&tables).iter().flat_map(|tables| &tables.credentials).map(|row| Some(row.number)));
    senders.retain(|&sender| !premised || premise(&tables, &list_of(&[sender])));
    (tables, senders)
}

fn sound_queue(random: &mut Random, stored: &TableBytes) -> QueueBytes {
    Tables::read(stored).map_or(QueueBytes::empty(), |tables| queue(random, &tables).bytes())
}

/// The records that wait in a queue of these tables.
fn waiting(stored: &TableBytes, queue: &QueueBytes) -> BTreeMap<Seat, Vec<u8>> {
    let sound = Tables::read(stored).ok().and_then(|tables| Queue::read(queue, &tables).ok());
    sound.into_iter().flat_map(|queue| queue.slots).map(|slot| (slot.owner, slot.record)).collect()
}

/// A run at random, with the premise or without: whether the others get what the book gives, and the tables at the end are the
/// book's.
pub fn random_run(random: &mut Random, judge: Judge, premised: bool, counts: &mut Counts) -> Result<(), String> {
    let mut run = Run::new(random, judge, premised);
    counts.runs += 1;
    counts.unsound += u64::from(run.case(random).expected().answer == NOT_SOUND);
    for _ in 0..random.between(1, CALLS) {
        let case = run.case(random);
        run.call(&case, counts)?;
    }
    run.end(counts)
}
