//! Cases for the office text: tables of a walk and tables of its own, each with
//! a buffer chosen with the text in view; how often each came; shrinking.

use std::fmt;

use crate::case::{self, written, Case, GUARD};
use crate::defaults::Defaults;
use crate::directory::{self, DIRECTORY, WEIGHT};
use crate::examples::{access, role, ANON, AUTH};
use crate::generate::any_sound;
use crate::office::{text, write, Refusal, TEXT_MAX};
use crate::queue::QueueBytes;
use crate::random::Random;
use crate::record::MAY_RETRIEVE;
use crate::spoil::TABLE_FAULTS;
use crate::tables::{fresh_bytes, read_uuid, Access, Period, Row, Subject, TableBytes, Tables, Uuid, Wildcards};

/// What a caller sees of the text.
#[derive(Clone, Debug, PartialEq, Eq)]
pub struct Listed {
    pub answer: u8,
    /// The length that is reported.
    pub length: usize,
    /// The buffer afterwards, and the guard of `GUARD` bytes after it.
    pub buffer: Vec<u8>,
}

impl Listed {
    /// What a caller is to see whose buffer has the capacity of the case.
    pub fn expected(case: &Case) -> Listed {
        let mut buffer = Case::pattern(case.capacity + GUARD);
        let (answer, length) = match write(&case.tables, &case.queue, &mut buffer[..case.capacity]) {
            Ok(length) => (0, length),
            Err(reason) => (reason as u8, 0),
        };
        Listed { answer, length, buffer }
    }

    /// In one line, with the bytes that are reported as text.
    pub fn describe(&self) -> String {
        let reported = &self.buffer[..self.length.min(self.buffer.len())];
        // Whatever the bytes are, the line stays one.
        let letter = |&byte: &u8| if byte.is_ascii_graphic() { byte as char } else { '.' };
        let text: String = reported.iter().map(letter).collect();
        format!("answer {}, length {}, {}, text '{text}'", self.answer, self.length, written(&self.buffer))
    }
}

/// A case for the text of these tables; clock, record and default lists don't
/// matter.
fn lend(tables: &TableBytes, capacity: usize) -> Case {
    Case { capacity, ..Case::new(tables, &[]) }
}

/// The length of the text, if there is one.
fn length(tables: &TableBytes) -> Option<usize> {
    Tables::read(tables).ok().map(|tables| text(&tables.accesses).len())
}

/// Chooses tables of a walk with their queue, and buffers for their
/// texts.
pub struct Picks {
    random: Random,
    last: Option<(TableBytes, QueueBytes)>,
}

/// That many of a hundred.
const PICKED: usize = 12;

impl Picks {
    pub fn new(seed: u64) -> Picks {
        Picks { random: Random::part(seed, 5), last: None }
    }

    /// A case when tables and queue are not those of the last call and it is
    /// their turn.
    pub fn pick(&mut self, tables: &TableBytes, queue: &QueueBytes) -> Option<Case> {
        if self.last.as_ref().is_some_and(|(last, beside)| last == tables && beside == queue) {
            return None;
        }
        self.last = Some((*tables, queue.clone()));
        self.random.chance(PICKED).then(|| Case { queue: queue.clone(), ..lend(tables, self.capacity(tables)) })
    }

    fn capacity(&mut self, tables: &TableBytes) -> usize {
        let random = &mut self.random;
        // Without a text, any length will do.
        let fits = length(tables).unwrap_or_else(|| random.between(1, TEXT_MAX));
        match random.below(20) {
            0..=4 => fits,
            5..=8 => fits - 1,
            9 | 10 => 0,
            11 => random.below(fits),
            12 | 13 => fits + 1,
            14..=17 => fits + random.between(2, 300),
            _ => random.between(TEXT_MAX, TEXT_MAX + 300),
        }
    }
}

/// Tables of its own: sound ones, each with a buffer that fits exactly and with
/// one that lacks a byte, then short and long texts and tables that are not
/// sound, each with buffers of many lengths.
pub fn cases() -> impl Iterator<Item = Case> {
    let fitted = tables().into_iter().flat_map(|tables| {
        let (stored, fits) = (tables.bytes(), text(&tables.accesses).len());
        [fits, fits - 1].map(|capacity| lend(&stored, capacity))
    });
    let edges = [fresh_bytes(), with_rows(&longest()).bytes()].into_iter().chain(not_sound());
    fitted.chain(edges.flat_map(|stored| {
        let empty = text(&[]).len();
        let capacities = [0, 1, empty - 1, empty, empty + 1, TEXT_MAX - 1, TEXT_MAX, TEXT_MAX + 1];
        capacities.map(|capacity| lend(&stored, capacity))
    }))
}

/// Access rows in which each part takes all its values.
fn tables() -> Vec<Tables> {
    let lists = [numbers_and_roles(), sets_and_wildcards(), uuids(), periods()];
    let chunks = lists.iter().flat_map(|list| list.chunks(Access::CAPACITY)).map(with_rows);
    chunks.chain(left_out().iter().map(|rows| with_rows(rows))).collect()
}

fn with_rows(rows: &[Access]) -> Tables {
    Tables { accesses: rows.to_vec(), ..Tables::fresh() }
}

/// Each fault that tables can have.
fn not_sound() -> Vec<TableBytes> {
    let mut random = Random::new(5);
    let spoilt = TABLE_FAULTS.iter().map(|(_, fault)| loop {
        let mut stored = any_sound(&mut random).bytes();
        if fault(&mut stored, &mut random) {
            break stored;
        }
    });
    spoilt.collect()
}

/// Every number, every role and every authority, each with another.
fn numbers_and_roles() -> Vec<Access> {
    let row =
        |number: u16, authority| access(number, role(authority, number.wrapping_neg()), (number % 32) as u8, 0, &[]);
    // There is an authority more than there are numbers.
    (1..=u16::MAX).map(|number| row(number, number - 1)).chain([row(1, u16::MAX)]).collect()
}

/// Every set of resources with every choice of wildcards.
fn sets_and_wildcards() -> Vec<Access> {
    let choices = 0..1u32 << (DIRECTORY.len() + 3);
    choices
        .map(|choice| {
            let held = DIRECTORY.iter().enumerate().filter(|(place, _)| choice >> (place + 3) & 1 == 1);
            Access {
                // There is a choice more than there are numbers.
                number: (choice % 0xFFFF + 1) as u16,
                subject: if choice % 3 == 0 { ANON } else { AUTH },
                permission: (choice / 5 % 32) as u8,
                wildcards: Wildcards::from_number((choice % 8) as u8),
                set: held.fold(0, |set, (_, resource)| set | resource.bit()),
                period: Period::ALWAYS,
            }
        })
        .collect()
}

/// Every value of every byte of a UUID.
fn uuids() -> Vec<Access> {
    let mut rows = Vec::new();
    for place in 0..16 {
        for byte in 0..=255 {
            let mut bytes = 0x0123_4567_89AB_CDEF_1032_5476_98BA_DCFEu128.to_be_bytes();
            bytes[place] = byte;
            let subject = Subject::Uuid(read_uuid(&bytes).expect("not nil"));
            rows.push(access(rows.len() as u16 + 1, subject, MAY_RETRIEVE, 0, &[WEIGHT]));
        }
    }
    rows
}

/// Periods a bit away from every second, each after a row that is written.
fn periods() -> Vec<Access> {
    let periods = (0..32).flat_map(|bit| {
        let Period { first, last } = Period::ALWAYS;
        [Period { first: 1 << bit, last }, Period { first, last: last ^ 1 << bit }]
    });
    let pairs = periods.flat_map(|period| [Period::ALWAYS, period]);
    (1..).zip(pairs).map(|(number, period)| Access { period, ..access(number, AUTH, 2, 0, &[8]) }).collect()
}

/// Every choice of rows to leave out of five, and all but one of a full table.
fn left_out() -> Vec<Vec<Access>> {
    let rows = |count: u16, left_out: &dyn Fn(u16) -> bool| -> Vec<Access> {
        let period = |place| if left_out(place) { Period { first: 1, last: 9 } } else { Period::ALWAYS };
        (0..count).map(|place| Access { period: period(place), ..access(place + 1, ANON, 2, 0, &[8]) }).collect()
    };
    let few = (0..32).map(|choice| rows(5, &|place| choice >> place & 1 == 1));
    let one = (0..32).map(|kept| rows(32, &|place| place != kept));
    few.chain(one).collect()
}

/// A table with the longest text.
fn longest() -> Vec<Access> {
    let row = Access { set: directory::known(), ..access(10_000, Subject::Uuid(Uuid::MAX), 31, 7, &[]) };
    (0..Access::CAPACITY as u16).map(|place| Access { number: row.number + place, ..row.clone() }).collect()
}

/// How often there was a text, and how the buffers fitted.
#[derive(Clone, Default)]
pub struct Counts {
    pub exact: u64,
    pub to_spare: u64,
    pub one_too_short: u64,
    pub no_buffer: u64,
    pub otherwise_too_short: u64,
    pub not_sound: u64,
}

impl Counts {
    pub fn add(&mut self, case: &Case, listed: &Listed) {
        let too_short = listed.answer == Refusal::NoRoom as u8;
        let count = match case.capacity {
            _ if listed.answer == Refusal::NotSound as u8 => &mut self.not_sound,
            0 if too_short => &mut self.no_buffer,
            capacity if too_short && Some(capacity + 1) == length(&case.tables) => &mut self.one_too_short,
            _ if too_short => &mut self.otherwise_too_short,
            capacity if capacity == listed.length => &mut self.exact,
            _ => &mut self.to_spare,
        };
        *count += 1;
    }

    pub fn total(&self) -> u64 {
        let Counts { exact, to_spare, one_too_short, no_buffer, otherwise_too_short, not_sound } = self;
        exact + to_spare + one_too_short + no_buffer + otherwise_too_short + not_sound
    }
}

impl fmt::Display for Counts {
    fn fmt(&self, out: &mut fmt::Formatter) -> fmt::Result {
        let Counts { exact, to_spare, one_too_short, no_buffer, otherwise_too_short, not_sound } = self;
        write!(
            out,
            "office texts: {}, of which {exact} fit exactly, {to_spare} with room to spare, {one_too_short} lack one \
             byte, {no_buffer} have no buffer, {otherwise_too_short} lack more, {not_sound} of tables not sound",
            self.total()
        )
    }
}

/// Makes a case smaller as long as its text differs.
pub fn shrink(case: Case, differs: impl Fn(&Case) -> bool) -> Case {
    let bare = Case { clock: 0, record: Vec::new(), defaults: Defaults::none(), ..case };
    // The text gets shorter with the tables, so the buffer has to go with it.
    let fitted = |case: &Case| {
        let fits = length(&case.tables).unwrap_or(0);
        let mut capacities = [0, fits.saturating_sub(1), fits, fits + 1, case.capacity];
        capacities.sort();
        capacities.into_iter().map(|capacity| Case { capacity, ..case.clone() }).find(&differs)
    };
    let small = case::shrink(bare, |case| fitted(case).is_some());
    case::shrink(fitted(&small).unwrap_or(small), &differs)
}

#[cfg(test)]
#[path = "tests/texts.rs"]
mod tests;
