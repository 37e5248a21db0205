//! Mutants of the periods of access rows, and of the clock.

use model::answers::*;
use model::case::{Case, Seen};
use model::directory::ACL2;
use model::record::HEADER_SIZE;
use model::tables::{Access, Row, Tables, ACCESSES};

use super::Mutant::{self, *};
use super::{mended, row_of, row_of_mut, update_of, RowsOf};

/// The size of the row owner, at the front of a reply.
const OWNER: usize = 16;

/// The period of a row.
const PERIOD: std::ops::RangeFrom<usize> = Access::SHORT_BODY_SIZE..;

/// Whether the period at the end of a row or body ends before it begins.
fn turned(row: &[u8]) -> bool {
    row.len() == Access::BODY_SIZE && row[Access::FIRST] > row[Access::LAST]
}

/// The short body of an access row that is stored.
fn short_access<'a>(case: &'a Case, right: &Seen) -> Option<&'a [u8]> {
    let short = |body: &&[u8]| body.len() == Access::SHORT_BODY_SIZE;
    update_of(ACL2, case, right).filter(short).filter(|_| right.answer == PERMITTED)
}

pub const TABLE: &[Mutant] = &[
    Holds("ignores the clock", |_, _| true),
    Holds("ends a period a second early", |period, clock| period.first <= clock && clock < period.last),
    Holds("begins a period a second late", |period, clock| period.first < clock && clock <= period.last),
    Holds("ends a period a second late", |period, clock| {
        period.first <= clock && clock <= period.last.saturating_add(1)
    }),
    Holds("begins a period a second early", |period, clock| {
        period.first.saturating_sub(1) <= clock && clock <= period.last
    }),
    Holds("looks at the first second only", |period, clock| period.first <= clock),
    Holds("looks at the last second only", |period, clock| clock <= period.last),
    Holds("compares clocks with a sign", |period, clock| {
        period.first as i32 <= clock as i32 && clock as i32 <= period.last as i32
    }),
    Holds("has clocks of 16 bits", |period, clock| {
        period.first as u16 <= clock as u16 && clock as u16 <= period.last as u16
    }),
    Holds("reads the clock from the wrong end", |period, clock| period.holds_at(clock.swap_bytes())),
    Any("takes away rows whose period has ended", |case, right| match Tables::read(&right.tables) {
        Ok(mut tables) if right.answer == PERMITTED => {
            tables.accesses.retain(|row| case.clock <= row.period.last);
            Seen { tables: tables.bytes(), ..right }
        }
        _ => right,
    }),
    Any("replies with the rows in force", |case, mut right| {
        let of_accesses = case.record.len() == HEADER_SIZE && case.record[1] == ACL2 << 6;
        if of_accesses && right.reply > OWNER {
            let rows = right.buffer[OWNER..right.reply].chunks(Access::BODY_SIZE).filter_map(Access::read);
            let in_force = rows.filter(|row| row.period.holds_at(case.clock));
            let left: Vec<u8> = in_force.flat_map(|row| row.bytes()).collect();
            let mut buffer = Case::pattern(right.buffer.len());
            buffer[..OWNER].copy_from_slice(&right.buffer[..OWNER]);
            buffer[OWNER..OWNER + left.len()].copy_from_slice(&left);
            right.reply = OWNER + left.len();
            right.buffer = buffer;
        }
        right
    }),
    Malformed("refuses a body without a period", ACL2, |body| body.len() == Access::SHORT_BODY_SIZE),
    Malformed("refuses a body with a period", ACL2, |body| body.len() == Access::BODY_SIZE),
    Any("stores a period that ends before it begins", |case, right| match update_of(ACL2, case, &right) {
        Some(body) if right.answer == MALFORMED && turned(body) => {
            let mut straight = case.clone();
            straight.record[HEADER_SIZE..][Access::FIRST].fill(0);
            straight.expected()
        }
        _ => right,
    }),
    Any("takes a period that ends before it begins for sound", |case, right| {
        mended::<Access>(case, right, RowsOf::Accesses, |row| {
            if turned(row) {
                row[Access::FIRST].fill(0);
            }
        })
    }),
    Any("puts zeros after a body without a period", |case, mut right| {
        if let Some(body) = short_access(case, &right) {
            row_of_mut::<Access>(&mut right.tables[ACCESSES], body).expect("stored")[PERIOD].fill(0);
        }
        right
    }),
    Any("keeps the period that a shorter body leaves out", |case, mut right| {
        if let Some(body) = short_access(case, &right) {
            if let Some(before) = row_of::<Access>(&case.tables[ACCESSES], body) {
                let row = row_of_mut::<Access>(&mut right.tables[ACCESSES], body).expect("stored");
                row[PERIOD].copy_from_slice(&before[PERIOD]);
            }
        }
        right
    }),
];
