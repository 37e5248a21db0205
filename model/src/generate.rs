//! Random tables and records. The same seed gives the same ones. What is drawn is in
//! files, by what it is; here are sessions, and the walk over all cases.

mod lists;
mod records;
mod rows;
mod runs;
mod stored;
mod values;
mod waiting;
mod wishes;

use crate::case::{Call, Case};
use crate::defaults::{join, Defaults, DEFAULTS_MAX};
use crate::directory::{self, DIRECTORY, LINKS, ROLES, YARD};
use crate::examples;
use crate::queue::{self, Queue, QueueBytes, Seat, Slot, UNAUTHENTICATED};
use crate::random::Random;
use crate::record::{compose, device_owner_body, target_body, Header, Verb, HEADER_SIZE, RECORD_MAX};
use crate::rules::{effective_permission, judge, receive, Sender, REPLY_MAX};
use crate::run::RUN_MAX;
use crate::spoil;
use crate::systematic;
use crate::tables::{
    fresh_bytes, uuid_bytes, Access, Asserted, Connection, Credential, Period, Role, Row, State, Subject, TableBytes,
    Tables, Uuid, Wildcards, SIZE,
};

pub use lists::*;
pub use records::*;
pub use rows::*;
pub use runs::*;
pub use stored::*;
pub use values::*;
pub use waiting::*;
use wishes::*;

/// How records are chosen.
#[derive(Clone, Copy, Debug, PartialEq, Eq)]
pub enum Style {
    /// Sets up, provisions, operates and resets, mostly permitted.
    Purposeful,
    /// Anything that a sender might try.
    Mixed,
    /// Mixed, and every second record damaged.
    Damaged,
    /// Bytes without sense.
    Noise,
}

/// Tables and a queue to start from, default lists, and how many records
/// follow in which style.
pub struct Session {
    pub tables: TableBytes,
    pub queue: QueueBytes,
    pub defaults: Defaults,
    pub style: Style,
    pub records: usize,
    /// Whether records are handed in and taken, or all judged directly.
    pub turns: bool,
}

/// The next call of a session.
pub fn call(random: &mut Random, session: &Session) -> Call {
    if session.turns {
        random.weighted(&[(45, Call::HandIn), (35, Call::Take), (20, Call::Judge)])
    } else {
        Call::Judge
    }
}

pub fn session(random: &mut Random) -> Session {
    #[derive(Clone, Copy)]
    enum Start {
        Fresh,
        Sound(Fill),
        Unsound,
        SeveralFaults,
        FlippedBit,
        Noise,
    }
    let start = random.weighted(&[
        (22, Start::Fresh),
        (18, Start::Sound(Fill::Few)),
        (8, Start::Sound(Fill::Any)),
        (9, Start::Sound(Fill::NearFull)),
        (9, Start::Sound(Fill::Full)),
        (16, Start::Unsound),
        (6, Start::SeveralFaults),
        (10, Start::FlippedBit),
        (2, Start::Noise),
    ]);
    let long = random.between(10, 120);
    let defaults = defaults(random);
    let (tables, records) = match start {
        Start::Fresh => (defaults.fresh().bytes(), long),
        Start::Sound(fill) => (sound(random, fill).bytes(), long),
        Start::Unsound => {
            let mut stored = any_sound(random).bytes();
            spoil::spoil_tables(&mut stored, random);
            (stored, random.between(1, 20))
        }
        Start::SeveralFaults => {
            let mut stored = any_sound(random).bytes();
            for _ in 0..random.between(2, 5) {
                spoil::spoil_tables(&mut stored, random);
            }
            (stored, random.between(1, 10))
        }
        Start::FlippedBit => {
            let mut stored = any_sound(random).bytes();
            spoil::flip_table_bit(&mut stored, random);
            (stored, random.between(1, 12))
        }
        Start::Noise => (noise(random), random.between(1, 4)),
    };
    let style =
        random.weighted(&[(40, Style::Purposeful), (40, Style::Mixed), (15, Style::Damaged), (5, Style::Noise)]);
    let turns = random.chance(50);
    let queue = if turns { queue_bytes(random, &tables, 30, 15) } else { queue_bytes(random, &tables, 80, 25) };
    let sound = Tables::read(&tables).is_ok_and(|tables| Queue::read(&queue, &tables).is_ok());
    // Every call gets the same answer otherwise.
    let records = if sound { records } else { records.min(12) };
    Session { tables, queue, defaults, style, records, turns }
}

/// Where a case comes from.
#[derive(Clone, Copy, Debug, PartialEq, Eq)]
pub enum Part {
    Systematic(&'static str),
    Random(Style),
}

/// Shows `records` cases to `visit`: first the systematic ones, then random
/// sessions. `visit` returns the tables and the queue afterwards.
pub fn walk(seed: u64, records: u64, mut visit: impl FnMut(Part, &Case) -> (TableBytes, QueueBytes)) {
    let left = walk_groups(seed, records, &mut visit);
    walk_sessions(seed, left, &mut visit);
}

/// The systematic cases, up to `records`; returns how many are left.
pub fn walk_groups(seed: u64, records: u64, visit: &mut impl FnMut(Part, &Case) -> (TableBytes, QueueBytes)) -> u64 {
    let mut random = Random::part(seed, 4);
    let mut left = records;
    for group in systematic::groups(seed) {
        let defaults = group.defaults.unwrap_or_else(|| defaults(&mut random));
        for record in &group.records {
            if left == 0 {
                return 0;
            }
            left -= 1;
            let mut case = Case::new(&group.tables, record);
            case.call = group.call;
            case.queue = group.queue.clone();
            case.clock = group.clock.unwrap_or_else(|| clock(&mut random, &group.tables));
            case.capacity = group.capacity.unwrap_or_else(|| capacity(&mut random, &case));
            case.defaults = defaults.clone();
            visit(Part::Systematic(group.name), &case);
        }
    }
    left
}

/// Random sessions, `left` records in all.
pub fn walk_sessions(seed: u64, mut left: u64, visit: &mut impl FnMut(Part, &Case) -> (TableBytes, QueueBytes)) {
    let mut random = Random::part(seed, 1);
    while left > 0 {
        let session = session(&mut random);
        let mut tables = session.tables;
        let mut queue = session.queue.clone();
        for _ in 0..left.min(session.records as u64) {
            left -= 1;
            let call = call(&mut random, &session);
            let clock = clock(&mut random, &tables);
            let record = match call {
                Call::Take => Vec::new(),
                _ => record(&mut random, session.style, &tables, clock),
            };
            let mut case = Case { call, clock, queue, ..Case::new(&tables, &record) };
            case.capacity = capacity(&mut random, &case);
            case.defaults = session.defaults.clone();
            (tables, queue) = visit(Part::Random(session.style), &case);
        }
    }
}

#[cfg(test)]
#[path = "tests/generate.rs"]
mod tests;
