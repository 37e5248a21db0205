//! Mutants of the decision: programs that make something else of a record. The
//! tables of this folder list them; this file says what their entries mean.

mod periods;
mod records;
mod roles;
mod yard;

use model::answers::*;
use model::bits::be32;
use model::case::{Call, Case, Seen, GUARD};
use model::defaults::Defaults;
use model::directory::{PSTAT, ROLES, YARD};
use model::examples::{access, AUTH};
use model::record::{Header, Verb, HEADER_SIZE, MAY_ALL, MAY_RETRIEVE, MAY_UPDATE, RECORD_MAX};
use model::tables::{
    Access, Asserted, Credential, Period, Role, Row, Tables, ACCESSES, ACCESS_COUNT, CREDENTIALS, CREDENTIAL_COUNT,
    NUMBER,
};

use super::wanted_roles;

/// A mutant, by what it does otherwise than the rules.
pub enum Mutant {
    /// What it makes of a case, given what is right.
    Any(&'static str, fn(&Case, Seen) -> Seen),
    /// It gives another answer, and nothing else, for a right one: first the right
    /// one.
    Answer(&'static str, u8, u8),
    /// It gives an answer to each record of this kind to the roles. The sender's row
    /// is there if the sender has one.
    ToRoles(&'static str, u8, fn(&Case, &Seen, Header, Option<&Credential>) -> bool),
    /// It refuses such bodies of an UPDATE as malformed, by resource.
    Malformed(&'static str, u8, fn(&[u8]) -> bool),
    /// It changes the default lists before a reset.
    Reset(&'static str, fn(&mut Defaults)),
    /// It changes roles before it compares them.
    Compares(&'static str, fn(&mut Role)),
    /// Its access rows hold at other times.
    Holds(&'static str, fn(Period, u32) -> bool),
    /// It changes access rows before it decides on the yard.
    Reaches(&'static str, fn(&mut Access)),
    /// It answers a poll with other links.
    Links(&'static str, fn(u64) -> u64),
    /// It answers a poll as if tables or record were others.
    LinksOf(&'static str, fn(&mut Tables, &mut Header)),
    /// It asserts a role otherwise: the roles of the row, the new one and the clock.
    Asserts(&'static str, fn(&mut Vec<Asserted>, Asserted, u32)),
    /// It changes the asserted roles before it looks for those that fit.
    Fits(&'static str, fn(&mut Vec<Asserted>)),
    /// It replies otherwise to a partner who reads its roles at a clock.
    Replies(&'static str, fn(&Credential, u32) -> Vec<Asserted>),
    /// It takes tables for sound whose asserted roles have such bytes.
    Overlooks(&'static str, fn(&[u8]) -> bool),
}

/// All mutants.
pub fn all() -> impl Iterator<Item = &'static Mutant> {
    [records::TABLE, periods::TABLE, yard::TABLE, roles::TABLE].into_iter().flatten()
}

impl Mutant {
    /// What it makes of a case, given what is right.
    pub fn run(&self, case: &Case, right: Seen) -> Seen {
        match *self {
            Mutant::Any(_, run) => run(case, right),
            Mutant::Answer(_, from, to) if right.answer == from => refused(to, case),
            Mutant::Answer(..) => right,
            Mutant::ToRoles(_, answer, which) => match to_roles(case, &right) {
                Some((header, row)) if which(case, &right, header, row.as_ref()) => refused(answer, case),
                _ => right,
            },
            Mutant::Malformed(_, resource, which) => match update_of(resource, case, &right) {
                Some(body) if which(body) => refused(MALFORMED, case),
                _ => right,
            },
            Mutant::Reset(_, change) => reset_with(case, right, change),
            Mutant::Compares(_, change) => with_roles(case, right, change),
            Mutant::Holds(_, holds) => holding(case, right, holds),
            Mutant::Reaches(_, change) => reached(case, right, change),
            Mutant::Links(_, other) => match polls(case, &right) {
                Some(_) => with_links(right.clone(), other(right.links)),
                None => right,
            },
            Mutant::LinksOf(_, change) => links_of(case, right, change),
            Mutant::Asserts(_, other) => asserted(case, right, other),
            Mutant::Fits(_, change) => fitting(case, right, change),
            Mutant::Replies(_, other) => replied(case, right, other),
            Mutant::Overlooks(_, which) => overlooking(case, right, which),
        }
    }

    /// What it does, for a sentence that begins with "a mutant that".
    pub fn name(&self) -> &'static str {
        let (Mutant::Any(name, ..)
        | Mutant::Answer(name, ..)
        | Mutant::ToRoles(name, ..)
        | Mutant::Malformed(name, ..)
        | Mutant::Reset(name, ..)
        | Mutant::Compares(name, ..)
        | Mutant::Holds(name, ..)
        | Mutant::Reaches(name, ..)
        | Mutant::Links(name, ..)
        | Mutant::LinksOf(name, ..)
        | Mutant::Asserts(name, ..)
        | Mutant::Fits(name, ..)
        | Mutant::Replies(name, ..)
        | Mutant::Overlooks(name, ..)) = self;
        name
    }
}

/// An answer without anything else, and nothing changed.
pub fn refused(answer: u8, case: &Case) -> Seen {
    Seen {
        answer,
        permission: 0,
        payload: 0..0,
        reply: 0,
        buffer: Case::pattern(case.capacity + GUARD),
        store_first: 0,
        store_count: 0,
        store_table: 0,
        links: 0,
        link_count: 0,
        taken: 0,
        record: if case.call == Call::Take { vec![0; RECORD_MAX] } else { Vec::new() },
        tables: case.tables,
        queue: case.queue.clone(),
    }
}

/// Whether the answer is given before the permission is asked for.
fn before_permission(answer: u8) -> bool {
    matches!(answer, NOT_SOUND..=NO_CREDENTIAL | NO_ENDPOINT)
}

/// The header of a record that passes checks 1 to 7.
fn received(case: &Case, right: &Seen) -> Option<Header> {
    let passes = !matches!(right.answer, NOT_SOUND..=NO_CREDENTIAL);
    passes.then(|| Header::read(&case.record))
}

/// Whether the record is one of this verb to this resource, as far as its header
/// says.
fn is(case: &Case, verb: Verb, resource: u8) -> bool {
    let sound = case.record.len() >= HEADER_SIZE;
    sound && {
        let header = Header::read(&case.record);
        (header.verb, header.resource, header.zeros) == (verb as u8, resource, 0)
    }
}

pub fn is_reset(case: &Case, right: &Seen) -> bool {
    is(case, Verb::Update, PSTAT) && case.record[HEADER_SIZE..] == [0] && right.answer == PERMITTED
}

/// The body of an UPDATE of a security resource that gets as far as its form.
pub fn update_of<'a>(resource: u8, case: &'a Case, right: &Seen) -> Option<&'a [u8]> {
    let update = is(case, Verb::Update, resource) && case.record.len() > HEADER_SIZE;
    (update && matches!(right.answer, PERMITTED | MALFORMED..=FULL)).then(|| &case.record[HEADER_SIZE..])
}

/// The row with the number of this body, among rows of the tables.
fn row_of<'a, R: Row>(rows: &'a [u8], body: &[u8]) -> Option<&'a [u8]> {
    rows.chunks_exact(R::ROW_SIZE).find(|row| row[NUMBER] == body[NUMBER])
}

fn row_of_mut<'a, R: Row>(rows: &'a mut [u8], body: &[u8]) -> Option<&'a mut [u8]> {
    rows.chunks_exact_mut(R::ROW_SIZE).find(|row| row[NUMBER] == body[NUMBER])
}

/// What is right, except for tables that a mutant takes for sound once it has mended
/// some of their rows.
fn mended<R: Row>(case: &Case, right: Seen, rows: RowsOf, mend: impl Fn(&mut [u8])) -> Seen {
    if right.answer != NOT_SOUND {
        return right;
    }
    let mut other = case.clone();
    let (bytes, count) = match rows {
        RowsOf::Credentials => (CREDENTIALS, CREDENTIAL_COUNT),
        RowsOf::Accesses => (ACCESSES, ACCESS_COUNT),
    };
    let count = usize::from(case.tables[count]);
    other.tables[bytes].chunks_exact_mut(R::ROW_SIZE).take(count).for_each(mend);
    Seen { tables: right.tables, ..other.expected() }
}

enum RowsOf {
    Credentials,
    Accesses,
}

fn overlooking(case: &Case, right: Seen, which: fn(&[u8]) -> bool) -> Seen {
    mended::<Credential>(case, right, RowsOf::Credentials, |row| {
        if which(&row[Credential::ASSERTED]) {
            row[Credential::ASSERTED].fill(0);
        }
    })
}

fn reset_with(case: &Case, right: Seen, change: fn(&mut Defaults)) -> Seen {
    if !is_reset(case, &right) {
        return right;
    }
    let mut defaults = case.defaults.clone();
    change(&mut defaults);
    Seen { tables: defaults.fresh().bytes(), ..right }
}

/// What is right, but with the answer and permission of other tables.
fn permitted_by(case: &Case, right: Seen, change: impl Fn(&mut Tables)) -> Seen {
    if before_permission(right.answer) {
        return right;
    }
    let before = Tables::read(&case.tables).expect("sound");
    let mut tables = before.clone();
    change(&mut tables);
    if tables == before {
        return right;
    }
    let other = Case { tables: tables.bytes(), ..case.clone() }.expected();
    Seen { answer: other.answer, permission: other.permission, ..right }
}

/// The roles that credentials have.
fn held_roles(tables: &mut Tables) -> impl Iterator<Item = &mut Role> {
    tables
        .credentials
        .iter_mut()
        .flat_map(|row| row.role.iter_mut().chain(row.asserted.iter_mut().map(|asserted| &mut asserted.role)))
}

fn with_roles(case: &Case, right: Seen, change: fn(&mut Role)) -> Seen {
    // A sender without a credential has no role.
    if case.record.first().is_none_or(|first| first & 0x10 == 0) {
        return right;
    }
    permitted_by(case, right, |tables| {
        held_roles(tables).for_each(change);
        wanted_roles(&mut tables.accesses).for_each(change);
        // Roles that are equal now would not be sound.
        for row in &mut tables.credentials {
            if let [first, second] = row.asserted[..] {
                if first.role == second.role {
                    row.asserted = vec![if first.last < second.last { second } else { first }];
                }
            }
        }
    })
}

fn holding(case: &Case, right: Seen, holds: fn(Period, u32) -> bool) -> Seen {
    // Most cases have no such row, and reading all tables takes its time.
    let wrong = |row: &[u8]| {
        let period = Period { first: be32(&row[Access::FIRST]), last: be32(&row[Access::LAST]) };
        holds(period, case.clock) != period.holds_at(case.clock)
    };
    let mut rows = case.tables[ACCESSES].chunks_exact(Access::ROW_SIZE).take(case.tables[ACCESS_COUNT].into());
    if !rows.any(wrong) {
        return right;
    }
    permitted_by(case, right, |tables| {
        tables.accesses.retain(|row| holds(row.period, case.clock));
        tables.accesses.iter_mut().for_each(|row| row.period = Period::ALWAYS);
    })
}

/// The header of a record for the yard that gets as far as its connection.
fn to_yard(case: &Case, right: &Seen) -> Option<Header> {
    received(case, right).filter(|header| header.resource == YARD)
}

/// The same when it is permitted and links are answered.
fn polls(case: &Case, right: &Seen) -> Option<Header> {
    let asks = |header: &Header| header.verb == Verb::Retrieve as u8 || header.verb == Verb::Update as u8;
    to_yard(case, right).filter(|header| right.answer == PERMITTED && asks(header))
}

fn with_links(right: Seen, links: u64) -> Seen {
    Seen { links, link_count: links.count_ones() as usize, ..right }
}

fn links_of(case: &Case, right: Seen, change: fn(&mut Tables, &mut Header)) -> Seen {
    let Some(mut header) = polls(case, &right) else {
        return right;
    };
    let mut tables = Tables::read(&case.tables).expect("sound");
    // The poll itself stays permitted.
    tables.accesses.truncate(Access::CAPACITY - 1);
    change(&mut tables, &mut header);
    let number = (1..).find(|&number| tables.accesses.iter().all(|row| row.number != number)).expect("a number");
    tables.accesses.push(access(number, AUTH, MAY_ALL, 0, &[YARD]));
    let other = Case { tables: tables.bytes(), record: header.with_body(&[]), ..case.clone() }.expected();
    with_links(right, other.links)
}

fn reached(case: &Case, right: Seen, change: fn(&mut Access)) -> Seen {
    if to_yard(case, &right).is_none() {
        return right;
    }
    permitted_by(case, right, |tables| tables.accesses.iter_mut().for_each(change))
}

/// The permission that each partner has on the roles.
const ON_ROLES: u8 = MAY_RETRIEVE | MAY_UPDATE;

/// The header and the sender's row, for a record to the roles that gets as far as
/// its permission.
fn to_roles(case: &Case, right: &Seen) -> Option<(Header, Option<Credential>)> {
    let header = received(case, right).filter(|header| header.resource == ROLES)?;
    let tables = Tables::read(&case.tables).expect("sound");
    Some((header, tables.credential(header.credential).cloned()))
}

/// The same when a partner reads its roles.
fn reads_roles(case: &Case, right: &Seen) -> Option<Credential> {
    let (header, row) = to_roles(case, right)?;
    let reads = header.verb == Verb::Retrieve as u8
        && case.record.len() == HEADER_SIZE
        && matches!(right.answer, PERMITTED | NO_ROOM);
    row.filter(|_| reads)
}

/// The same when a partner asserts a role in service, with that role.
fn asserts_role(case: &Case, right: &Seen) -> Option<(Credential, Asserted)> {
    let (header, row) = to_roles(case, right)?;
    let asserted = Asserted::from_body(&case.record[HEADER_SIZE..])?;
    let asserts = header.verb == Verb::Update as u8 && matches!(right.answer, PERMITTED | ROLES_FULL);
    row.filter(|_| asserts).map(|row| (row, asserted))
}

fn asserted(case: &Case, right: Seen, other: fn(&mut Vec<Asserted>, Asserted, u32)) -> Seen {
    let Some((mut row, asserted)) = asserts_role(case, &right) else {
        return right;
    };
    other(&mut row.asserted, asserted, case.clock);
    if row.asserted.len() > Asserted::CAPACITY {
        return refused(ROLES_FULL, case);
    }
    let mut tables = Tables::read(&case.tables).expect("sound");
    let caller_row = tables.credentials.iter_mut().find(|other| other.number == row.number).expect("there");
    // The owner of the terminal has all bits.
    let permission = if Some(row.subject) == tables.device_owner { MAY_ALL } else { right.permission.max(ON_ROLES) };
    *caller_row = row;
    Seen { answer: PERMITTED, permission, tables: tables.bytes(), ..right }
}

fn fitting(case: &Case, right: Seen, change: fn(&mut Vec<Asserted>)) -> Seen {
    if before_permission(right.answer) || Header::read(&case.record).resource == ROLES {
        return right;
    }
    permitted_by(case, right, |tables| tables.credentials.iter_mut().for_each(|row| change(&mut row.asserted)))
}

fn replied(case: &Case, right: Seen, other: fn(&Credential, u32) -> Vec<Asserted>) -> Seen {
    let Some(row) = reads_roles(case, &right) else {
        return right;
    };
    let reply: Vec<u8> = other(&row, case.clock).iter().flat_map(Asserted::bytes).collect();
    with_reply(case, right.permission.max(ON_ROLES), &reply)
}

/// A reply with this permission, or the refusal when it does not fit.
fn with_reply(case: &Case, permission: u8, reply: &[u8]) -> Seen {
    if reply.len() > case.capacity {
        return refused(NO_ROOM, case);
    }
    let mut seen = refused(PERMITTED, case);
    seen.buffer[..reply.len()].copy_from_slice(reply);
    Seen { reply: reply.len(), permission, ..seen }
}
