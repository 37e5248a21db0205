//! Counts over cases: answers, permitted records, replies and buffers, deletes by
//! subject, rows to store, default rows of resets, clocks and periods, links of the
//! yard, asserted roles, and the queue.

use std::fmt;

use crate::answers::{MISSING, NOTHING_WAITING, NOT_SOUND, NO_CREDENTIAL, NO_ENDPOINT, NO_ROOM, OF_RECORDS, PERMITTED};
use crate::case::{Call, Case};
use crate::defaults::Defaults;
use crate::directory::{self, Security, DIRECTORY, ROLES, YARD};
use crate::queue::{seat, Queue, QueueBytes, Seat, UNAUTHENTICATED};
use crate::record::{Header, Verb, HEADER_SIZE};
use crate::rules::{effective_permission, fits, judge, Outcome, Sender, REPLY_MAX};
use crate::tables::{Asserted, Credential, Period, Tables, CREDENTIAL_COUNT};

#[derive(Clone, Default)]
pub struct Histogram {
    pub answers: [u64; NOTHING_WAITING as usize + 1],
    /// Permitted records by resource (as in the directory) and verb.
    permitted: [[u64; 5]; DIRECTORY.len()],
    pub replies: Replies,
    pub subjects: Subjects,
    pub places: Places,
    pub resets: Resets,
    pub clocks: Clocks,
    pub sets: Sets,
    pub roles: Roles,
    pub turns: Turns,
}

/// Records that are handed in and taken.
#[derive(Clone, Default)]
pub struct Turns {
    /// Calls of each kind.
    pub judged: u64,
    pub handed_in: u64,
    pub taken: u64,
    /// Records that were kept.
    pub kept: u64,
    /// Takes that hand a record out and permit it, or refuse it.
    pub permitted: u64,
    pub refused: u64,
    /// Takes of another record than the first that came.
    pub out_of_order: u64,
    /// Takes after the last row in use, so that the round goes over its end.
    pub wrapped: u64,
    /// Rounds of an owner that the tables don't hold.
    pub stale: u64,
    /// Calls that drop a record that waits: by a deleted row, or by a reset.
    pub dropped: u64,
    pub cleared: u64,
    /// Calls that reset the round.
    pub reset: u64,
    /// Refused for the queue, with tables that are sound.
    pub not_sound: u64,
    /// Takes with all slots occupied.
    pub full: u64,
}

impl Turns {
    fn add(&mut self, case: &Case, outcome: &Outcome) {
        match case.call {
            Call::Judge => self.judged += 1,
            Call::HandIn => self.handed_in += 1,
            Call::Take => self.taken += 1,
        }
        // Most often nothing waits.
        if case.queue == QueueBytes::empty() && outcome.queue == QueueBytes::empty() {
            return;
        }
        let Ok(tables) = Tables::read(&case.tables) else {
            return;
        };
        let Ok(before) = Queue::read(&case.queue, &tables) else {
            self.not_sound += 1;
            return;
        };
        let left = Tables::read(&outcome.tables).expect("sound still");
        let after = Queue::read(&outcome.queue, &left).expect("sound still");
        let taken = usize::from(case.call == Call::Take && !outcome.taken.is_empty());
        self.kept += u64::from(after.slots.len() > before.slots.len());
        if after.slots.len() + taken < before.slots.len() {
            let count = if after == Queue::empty() { &mut self.cleared } else { &mut self.dropped };
            *count += 1;
        }
        self.reset += u64::from(before.last.is_some() && after.last.is_none());
        let known = |owner: Seat| owner == UNAUTHENTICATED || tables.credential(owner).is_some();
        self.stale += u64::from(before.last.is_some_and(|last| !known(last)));
        if taken == 1 {
            let count = if outcome.response.answer == PERMITTED { &mut self.permitted } else { &mut self.refused };
            *count += 1;
            self.out_of_order += u64::from(before.slots[0].record != outcome.taken);
            let rank = |owner| tables.credentials.iter().position(|row| row.number == owner).map_or(0, |row| row + 1);
            let taken = rank(seat(&outcome.taken));
            self.wrapped += u64::from(before.last.is_some_and(|last| known(last) && taken <= rank(last)));
            self.full += u64::from(before.slots.len() > tables.credentials.len());
        }
    }
}

/// Roles that partners show.
#[derive(Clone, Default)]
pub struct Roles {
    /// Permitted UPDATEs that add a role.
    pub added: u64,
    /// Permitted UPDATEs that set a new last second of an equal role.
    pub prolonged: u64,
    /// Permitted UPDATEs that remove a role that has run out.
    pub removed: u64,
    /// Permitted UPDATEs with a last second before the clock.
    pub past: u64,
    /// Records whose permission is larger for a role that is shown.
    pub opening: u64,
    /// Replies to partners, by the roles in force.
    pub replied: [u64; 3],
}

impl Roles {
    /// For a record that gets as far as its permission.
    fn add(&mut self, case: &Case, outcome: &Outcome, tables: &Tables) {
        let header = Header::read(&case.record);
        let (Some(row), Some(resource)) = (tables.credential(header.credential), directory::find(header.resource))
        else {
            return;
        };
        let permission = |row| effective_permission(tables, Sender::Partner(row), resource, case.clock);
        let bare = Credential { asserted: Vec::new(), ..row.clone() };
        self.opening += u64::from(!row.asserted.is_empty() && permission(row) != permission(&bare));
        if outcome.response.answer != PERMITTED || header.resource != ROLES {
            return;
        }
        match Verb::from_number(header.verb) {
            Some(Verb::Retrieve) => self.replied[outcome.response.reply.len() / Asserted::SIZE] += 1,
            Some(Verb::Update) => {
                let Some(shown) = Asserted::from_body(&case.record[HEADER_SIZE..]) else {
                    return;
                };
                let (held, over): (Vec<&Asserted>, Vec<&Asserted>) =
                    row.asserted.iter().partition(|held| held.in_force(case.clock));
                let count =
                    if held.iter().any(|held| held.role == shown.role) { &mut self.prolonged } else { &mut self.added };
                *count += 1;
                self.removed += u64::from(!over.is_empty());
                self.past += u64::from(!shown.in_force(case.clock));
            }
            _ => {}
        }
    }
}

/// Permitted records to the yard.
#[derive(Clone, Default)]
pub struct Sets {
    /// RETRIEVE and UPDATE, by the size of the set.
    pub sizes: [u64; 8],
    /// Other verbs, which get no set.
    pub unasked: u64,
}

/// Rows of a shorter period than every second, as often as such a row is for the
/// sender and the resource of a record that gets as far as its permission; by
/// the clock.
#[derive(Clone, Default)]
pub struct Clocks {
    pub first: u64,
    pub last: u64,
    /// By a second.
    pub just_before: u64,
    pub just_after: u64,
    /// Between first and last.
    pub within: u64,
    /// Outside by more.
    pub outside: u64,
}

impl Clocks {
    /// For a record that gets as far as its permission.
    fn add(&mut self, case: &Case, tables: &Tables) {
        let header = Header::read(&case.record);
        let Some(resource) = directory::find(header.resource) else {
            return;
        };
        let sender = match tables.credential(header.credential) {
            Some(row) => Sender::Partner(row),
            None => Sender::Unauthenticated,
        };
        let clock = case.clock;
        for row in tables.accesses.iter().filter(|row| fits(row, sender, resource, clock)) {
            let Period { first, last } = row.period;
            let count = match clock {
                _ if row.period == Period::ALWAYS => continue,
                _ if clock == first => &mut self.first,
                _ if clock == last => &mut self.last,
                _ if row.period.holds_at(clock) => &mut self.within,
                _ if clock.checked_add(1) == Some(first) => &mut self.just_before,
                _ if clock.checked_sub(1) == Some(last) => &mut self.just_after,
                _ => &mut self.outside,
            };
            *count += 1;
        }
    }
}

/// Permitted resets, by the default lists.
#[derive(Clone, Default)]
pub struct Resets {
    /// Both lists are empty.
    pub no_lists: u64,
    /// Good ones with a row at least.
    pub good: u64,
    /// A list counts as none, or both.
    pub bad: u64,
}

/// Permitted deletes of security rows, by the rows to store that they report.
#[derive(Clone, Default)]
pub struct Places {
    /// From the first on, several.
    pub from_first: u64,
    pub between: u64,
    /// One row, the last.
    pub last: u64,
    /// Nothing was there to delete.
    pub none: u64,
}

/// Deletes by subject, by the rows found.
#[derive(Clone, Default)]
pub struct Subjects {
    pub several: u64,
    pub one: u64,
    /// Refused with 13.
    pub none: u64,
}

/// Records that have a reply, by the buffer.
#[derive(Clone, Default)]
pub struct Replies {
    pub exact: u64,
    pub to_spare: u64,
    pub one_too_short: u64,
    pub no_buffer: u64,
    pub otherwise_too_short: u64,
}

impl Histogram {
    pub fn new() -> Histogram {
        Histogram::default()
    }

    pub fn add(&mut self, case: &Case, outcome: &Outcome) {
        self.answers[outcome.response.answer as usize] += 1;
        self.turns.add(case, outcome);
        match case.call {
            Call::Judge => self.add_judged(case, outcome),
            Call::HandIn => {}
            // As if it had come just now.
            Call::Take => {
                let (call, record) = (Call::Judge, outcome.taken.clone());
                self.add_judged(&Case { call, record, ..case.clone() }, outcome);
            }
        }
    }

    /// What there is to say of a record that is judged.
    fn add_judged(&mut self, case: &Case, outcome: &Outcome) {
        let record = &case.record;
        if !matches!(outcome.response.answer, NOT_SOUND..=NO_CREDENTIAL | NO_ENDPOINT | NOTHING_WAITING) {
            let tables = Tables::read(&case.tables).expect("sound after check 1");
            self.clocks.add(case, &tables);
            self.roles.add(case, outcome, &tables);
        }
        if outcome.response.answer == NO_ROOM {
            let fits = judge(&Case { capacity: REPLY_MAX, ..case.clone() }).response.reply.len();
            match case.capacity {
                0 => self.replies.no_buffer += 1,
                capacity if capacity + 1 == fits => self.replies.one_too_short += 1,
                _ => self.replies.otherwise_too_short += 1,
            }
        } else if !outcome.response.reply.is_empty() {
            if case.capacity == outcome.response.reply.len() {
                self.replies.exact += 1;
            } else {
                self.replies.to_spare += 1;
            }
        }
        if record.len() == HEADER_SIZE + 16 && is_delete_of_credentials(record) {
            let removed = case.tables[CREDENTIAL_COUNT].wrapping_sub(outcome.tables[CREDENTIAL_COUNT]);
            match (outcome.response.answer, removed) {
                (PERMITTED, 1) => self.subjects.one += 1,
                (PERMITTED, 2..) => self.subjects.several += 1,
                (MISSING, _) => self.subjects.none += 1,
                _ => {}
            }
        }
        if outcome.response.answer == PERMITTED
            && Header::read(record).verb == Verb::Delete as u8
            && outcome.response.payload.start == 0
        {
            match (outcome.response.store.start, outcome.response.store.len()) {
                (0, 0) => self.places.none += 1,
                (_, 1) => self.places.last += 1,
                (0, _) => self.places.from_first += 1,
                _ => self.places.between += 1,
            }
        }
        if outcome.response.answer == PERMITTED && outcome.response.payload.start == 0 && is_reset(record) {
            match &case.defaults {
                defaults if *defaults == Defaults::none() => self.resets.no_lists += 1,
                defaults if defaults.bad() => self.resets.bad += 1,
                _ => self.resets.good += 1,
            }
        }
        if outcome.response.answer == PERMITTED && record.len() >= HEADER_SIZE {
            let header = Header::read(record);
            let resource = DIRECTORY.iter().position(|resource| resource.number == header.resource);
            if let Some(resource) = resource {
                self.permitted[resource][header.verb as usize] += 1;
            }
            match Verb::from_number(header.verb) {
                Some(Verb::Retrieve | Verb::Update) if header.resource == YARD => {
                    self.sets.sizes[outcome.response.link_count()] += 1
                }
                _ if header.resource == YARD => self.sets.unasked += 1,
                _ => {}
            }
        }
    }

    pub fn total(&self) -> u64 {
        self.answers.iter().sum()
    }
}

fn is_reset(record: &[u8]) -> bool {
    let header = Header::read(record);
    let target = header.verb == Verb::Update as u8 && header.resource == Security::Pstat as u8;
    target && record[HEADER_SIZE..] == [0]
}

fn is_delete_of_credentials(record: &[u8]) -> bool {
    let header = Header::read(record);
    header.verb == Verb::Delete as u8 && header.resource == Security::Cred as u8
}

impl fmt::Display for Histogram {
    fn fmt(&self, out: &mut fmt::Formatter) -> fmt::Result {
        let total = self.total().max(1);
        writeln!(out, "answer    records  share")?;
        for answer in OF_RECORDS {
            let count = self.answers[answer as usize];
            let tenths = count * 1000 / total;
            writeln!(out, "{answer:>6} {count:>10} {:>4}.{} %", tenths / 10, tenths % 10)?;
        }
        write!(out, "permitted      ")?;
        for verb in Verb::ALL {
            write!(out, " {:>8}", format!("{verb:?}"))?;
        }
        writeln!(out)?;
        for (resource, counts) in DIRECTORY.iter().zip(&self.permitted) {
            write!(out, "{:<15}", resource.name)?;
            for count in counts {
                write!(out, " {count:>8}")?;
            }
            writeln!(out)?;
        }
        let Replies { exact, to_spare, one_too_short, no_buffer, otherwise_too_short } = self.replies;
        writeln!(out, "replies: {exact} fit exactly, {to_spare} with room to spare")?;
        writeln!(
            out,
            "         {one_too_short} lack one byte, {no_buffer} have no buffer, {otherwise_too_short} lack more"
        )?;
        let Subjects { several, one, none } = self.subjects;
        writeln!(out, "subjects to delete: {several} with several rows, {one} with one, {none} with none (13)")?;
        let Places { from_first, between, last, none } = self.places;
        writeln!(
            out,
            "places to store: {from_first} from the first on, {between} from between, {last} last, {none} none"
        )?;
        let Resets { no_lists, good, bad } = self.resets;
        writeln!(out, "resets: {no_lists} without default rows, {good} with good lists, {bad} with a bad one")?;
        let Clocks { first, last, just_before, just_after, within, outside } = self.clocks;
        writeln!(
            out,
            "clocks: {first} at the first second of a row's period, {last} at the last, {within} between,\n\
             {:8}{just_before} a second before, {just_after} a second after, {outside} further outside",
            ""
        )?;
        let Sets { sizes, unasked } = self.sets;
        write!(out, "sets of the yard, by size from 0:")?;
        for count in sizes {
            write!(out, " {count}")?;
        }
        writeln!(out, "; {unasked} not asked for")?;
        let Roles { added, prolonged, removed, past, opening, replied } = self.roles;
        let [none, one, two] = replied;
        writeln!(
            out,
            "roles shown: {added} more, {prolonged} with a new last second, {past} already over, {removed} times others \
             removed,\n{:13}{opening} records reach further by one; replies with none {none}, one {one}, two {two}",
            ""
        )?;
        let Turns { judged, handed_in, taken, kept, permitted, refused, .. } = self.turns;
        let Turns { out_of_order, wrapped, stale, dropped, cleared, reset, not_sound, full, .. } = self.turns;
        writeln!(
            out,
            "turns: {judged} records judged at once, {handed_in} hand-ins that keep {kept}, {taken} takes that permit \
             {permitted} and refuse {refused},\n{:7}{out_of_order} not of the record that came first, {wrapped} over \
             the end of the round, {full} with all places occupied,\n{:7}{dropped} calls drop records that wait, \
             {cleared} drop all, {reset} begin the round anew, {stale} meet a round of a place not held, {not_sound} \
             memory that is not sound",
            "", ""
        )
    }
}
