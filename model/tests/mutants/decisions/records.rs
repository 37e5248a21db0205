//! Mutants of records in general: answers, payload, replies, deletes, resets,
//! endpoints and the authority of roles.

use model::answers::*;
use model::case::{Case, Seen};
use model::defaults::ListError;
use model::directory::{ACL2, CRED};
use model::record::{Header, Verb, HEADER_SIZE};
use model::tables::{
    fresh_bytes, read_uuid, Access, Credential, Row, Tables, ACCESSES, ACCESS_COUNT, CREDENTIALS, CREDENTIAL_COUNT,
    SUBJECT_ROLE,
};

use super::Mutant::{self, *};
use super::{is, is_reset, mended, refused, row_of, row_of_mut, update_of, RowsOf};

/// The size of a UUID: a subject, an owner.
const UUID: usize = 16;

/// A reply that is longer than any.
const PLENTY: usize = 2000;

fn alters(case: &Case, right: &Seen) -> bool {
    right.answer == PERMITTED && right.tables != case.tables
}

/// Whether the case gets as far as the rows of a subject.
fn deletes_subject(case: &Case, right: &Seen) -> bool {
    is(case, Verb::Delete, CRED)
        && case.record.len() == HEADER_SIZE + UUID
        && matches!(right.answer, PERMITTED | MISSING)
}

/// The tables before a permitted delete by subject, and the row of that subject.
fn subject_deleted(case: &Case, right: &Seen) -> Option<(Tables, impl Fn(&Credential) -> bool)> {
    let deletes = deletes_subject(case, right) && right.answer == PERMITTED;
    let tables = Tables::read(&case.tables).ok().filter(|_| deletes)?;
    let subject = read_uuid(&case.record[HEADER_SIZE..]);
    Some((tables, move |row: &Credential| Some(row.subject) == subject))
}

/// The short body of a credential that is stored.
fn short_cred<'a>(case: &'a Case, right: &Seen) -> Option<&'a [u8]> {
    let short = |body: &&[u8]| body.len() == Credential::SHORT_BODY_SIZE;
    update_of(CRED, case, right).filter(short).filter(|_| right.answer == PERMITTED)
}

/// Whether a row or a body has an authority, but no role.
fn authority_without_role(row: &[u8]) -> bool {
    row.len() >= Credential::BODY_SIZE && row[Credential::ROLE] == [0, 0]
}

pub const TABLE: &[Mutant] = &[
    Any("turns all away", |case, _| refused(NOT_PERMITTED, case)),
    Any("permits all", |case, right| if right.answer == PERMITTED { right } else { refused(PERMITTED, case) }),
    Any("never alters the tables", |case, right| Seen { tables: case.tables, ..right }),
    Any("obeys the first record only", |case, right| match case.tables == fresh_bytes() {
        true => right,
        false => Seen { tables: case.tables, ..right },
    }),
    Any("says 13 to every change", |case, right| if alters(case, &right) { refused(MISSING, case) } else { right }),
    Any("says 14 to every change", |case, right| if alters(case, &right) { refused(FULL, case) } else { right }),
    Answer("never says 13", MISSING, PERMITTED),
    Answer("never says 14", FULL, PERMITTED),
    Any("passes no payload on", |_, right| Seen { payload: 0..0, ..right }),
    Any("reports the permission afterwards", |case, right| match right.answer {
        PERMITTED => Seen { permission: Case { tables: right.tables, ..case.clone() }.expected().permission, ..right },
        _ => right,
    }),
    Any("says 15 when the reply just fits", |case, right| match right.reply > 0 && right.reply == case.capacity {
        true => refused(NO_ROOM, case),
        false => right,
    }),
    Any("writes as much as fits", |case, mut right| {
        if right.answer == NO_ROOM {
            let whole = Case { capacity: PLENTY, ..case.clone() }.expected();
            right.buffer[..case.capacity].copy_from_slice(&whole.buffer[..case.capacity]);
        }
        right
    }),
    Any("clears the buffer after the reply", |case, mut right| {
        right.buffer[right.reply..case.capacity].fill(0);
        right
    }),
    Any("reports a length and writes nothing", |case, right| Seen { buffer: refused(PERMITTED, case).buffer, ..right }),
    Any("replies to an OBSERVE", |case, right| {
        let header = Header::read(case.record.get(..HEADER_SIZE).unwrap_or(&[0; HEADER_SIZE]));
        if right.answer == PERMITTED && header.verb == Verb::Observe as u8 {
            let read = Header { verb: Verb::Retrieve as u8, ..header };
            let record = read.with_body(&case.record[HEADER_SIZE..]);
            Case { record, ..case.clone() }.expected()
        } else {
            right
        }
    }),
    Any("leaves the row owner out", |_, right| Seen {
        reply: if right.reply >= UUID { right.reply - UUID } else { right.reply },
        ..right
    }),
    Any(
        "deletes no subject",
        |case, right| if deletes_subject(case, &right) { refused(MALFORMED, case) } else { right },
    ),
    Any("deletes only the first row of a subject", |case, right| match subject_deleted(case, &right) {
        Some((mut tables, fits)) => {
            let first = tables.credentials.iter().position(fits).expect("permitted");
            tables.credentials.remove(first);
            Seen { tables: tables.bytes(), ..right }
        }
        None => right,
    }),
    Any("fills the gap with the last row", |case, right| match subject_deleted(case, &right) {
        Some((mut tables, fits)) => {
            while let Some(row) = tables.credentials.iter().position(&fits) {
                tables.credentials.swap_remove(row);
            }
            Seen { tables: tables.bytes(), ..right }
        }
        None => right,
    }),
    Any("reports no rows to store", |_, right| Seen { store_first: 0, store_count: 0, ..right }),
    Any("reports the whole table", |_, right| Seen {
        store_first: 0,
        store_count: right.store_first + right.store_count,
        ..right
    }),
    Any("reports only the rows that stay", |_, right| Seen {
        store_count: right.store_count.saturating_sub(1),
        ..right
    }),
    Any("counts rows from 1", |_, right| Seen {
        store_first: right.store_first + usize::from(right.store_count > 0),
        ..right
    }),
    Any("reports the first deleted row alone", |_, right| Seen { store_count: right.store_count.min(1), ..right }),
    Any("reports the other table", |_, right| Seen { store_table: [0, 2, 1][right.store_table as usize], ..right }),
    Any("reports the access rows for every delete", |_, right| Seen {
        store_table: right.store_table.saturating_mul(2).min(2),
        ..right
    }),
    Any("reports a table without rows to store", |case, right| match right.answer == 0 && right.store_count == 0 {
        true => Seen { store_table: 1 + u8::from(case.record.len() > 4), ..right },
        false => right,
    }),
    Any("reports a reset as a delete", |case, right| {
        match is_reset(case, &right) && case.tables[CREDENTIAL_COUNT] > 0 {
            true => Seen { store_count: case.tables[CREDENTIAL_COUNT].into(), ..right },
            false => right,
        }
    }),
    Reset("resets to no rows", |defaults| *defaults = Default::default()),
    Reset("takes the first rows of too long a list", |defaults| {
        defaults.default_creds.truncate(2 * Credential::BODY_SIZE);
        defaults.default_aces.truncate(2 * Access::BODY_SIZE);
    }),
    Reset("takes the whole rows of a list", |defaults| {
        let whole = |list: &mut Vec<u8>, size| list.truncate(list.len() / size * size);
        whole(&mut defaults.default_creds, Credential::BODY_SIZE);
        whole(&mut defaults.default_aces, Access::BODY_SIZE);
    }),
    Reset("takes the good rows of a list", |defaults| {
        let good = |row: &&[u8]| Credential::read(row).is_some() || Access::read(row).is_some();
        let good_rows = |list: &[u8], size| list.chunks(size).filter(good).collect::<Vec<_>>().concat();
        defaults.default_creds = good_rows(&defaults.default_creds, Credential::BODY_SIZE);
        defaults.default_aces = good_rows(&defaults.default_aces, Access::BODY_SIZE);
    }),
    Any("takes a number twice", |case, right| {
        let mut twice = right.clone();
        if is_reset(case, &right) && case.defaults.read_credentials() == Err(ListError::NumberTwice) {
            twice.tables[CREDENTIAL_COUNT] = 2;
            let rows = case.defaults.default_creds.chunks(Credential::BODY_SIZE);
            for (stored, row) in twice.tables[CREDENTIALS].chunks_mut(Credential::ROW_SIZE).zip(rows) {
                stored[..Credential::BODY_SIZE].copy_from_slice(row);
            }
        }
        if is_reset(case, &right) && case.defaults.read_accesses() == Err(ListError::NumberTwice) {
            twice.tables[ACCESS_COUNT] = 2;
            twice.tables[ACCESSES][..2 * Access::BODY_SIZE].copy_from_slice(&case.defaults.default_aces);
        }
        twice
    }),
    Reset("drops both lists for one that is bad", |defaults| {
        if defaults.bad() {
            *defaults = Default::default();
        }
    }),
    Any("keeps the rows at a reset", |case, right| {
        if !is_reset(case, &right) {
            return right;
        }
        let mut tables = case.tables;
        tables[..CREDENTIALS.start].copy_from_slice(&right.tables[..CREDENTIALS.start]);
        for count in [CREDENTIAL_COUNT, ACCESS_COUNT] {
            tables[count] = case.tables[count];
        }
        Seen { tables, ..right }
    }),
    Answer("never says 16", NO_ENDPOINT, PERMITTED),
    Answer("says 8 before 16", NO_ENDPOINT, NOT_PERMITTED),
    Any("says 16 to security records in clear", |case, right| match case.record[..] {
        [first, second, ..] if right.answer == PERMITTED && first & 0x1F == 0 && second & 0x3F == 0 => {
            refused(NO_ENDPOINT, case)
        }
        _ => right,
    }),
    Compares("fits a role of any authority", |role| role.authority = 0),
    Compares("fits any role of an authority", |role| role.number = 1),
    Compares("fits the low byte of an authority", |role| role.authority %= 256),
    Malformed("refuses a body without an authority", CRED, |body| body.len() == Credential::SHORT_BODY_SIZE),
    Malformed("refuses a body with an authority", CRED, |body| body.len() == Credential::BODY_SIZE),
    Any("stores an authority with role 0", |case, right| match update_of(CRED, case, &right) {
        Some(body)
            if right.answer == MALFORMED && body.len() == Credential::BODY_SIZE && authority_without_role(body) =>
        {
            let mut other = case.clone();
            other.record[HEADER_SIZE..][Credential::AUTHORITY].fill(0);
            other.expected()
        }
        _ => right,
    }),
    Any("takes an authority with role 0 for sound", |case, right| {
        mended::<Credential>(case, right, RowsOf::Credentials, |row| {
            if authority_without_role(row) {
                row[Credential::AUTHORITY].fill(0);
            }
        })
    }),
    Malformed("refuses an authority in a role row", ACL2, |body| {
        body.len() >= Access::SHORT_BODY_SIZE
            && body[Access::KIND] >> 6 == SUBJECT_ROLE
            && body[Access::AUTHORITY] != [0, 0]
    }),
    Any("puts zeros after a body without an authority", |case, mut right| {
        if let Some(body) = short_cred(case, &right) {
            let row = row_of_mut::<Credential>(&mut right.tables[CREDENTIALS], body).expect("stored");
            row[Credential::AUTHORITY].copy_from_slice(&[body[Credential::SHORT_BODY_SIZE - 1], 0]);
            row[Credential::TYPE] = 0;
        }
        right
    }),
    Any("keeps the authority that a shorter body leaves out", |case, mut right| {
        if let Some(body) = short_cred(case, &right) {
            if let Some(before) = row_of::<Credential>(&case.tables[CREDENTIALS], body) {
                let row = row_of_mut::<Credential>(&mut right.tables[CREDENTIALS], body).expect("stored");
                row[Credential::AUTHORITY].copy_from_slice(&before[Credential::AUTHORITY]);
            }
        }
        right
    }),
];
