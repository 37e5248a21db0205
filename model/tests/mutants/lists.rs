//! Mutants of the test of lists to load: programs that say something else of a
//! list.

use model::answers::*;
use model::directory::{set_bit, ACL2};
use model::examples::{ANON, AUTH};
use model::provisioning::{opens_security, test, Tested};
use model::record::{MAY_ALL, MAY_CREATE, MAY_DELETE, MAY_UPDATE};
use model::tables::{Access, Period, Row, Subject, NUMBER};

use Mutant::*;

/// A mutant, by what it does otherwise than the rules.
pub enum Mutant {
    /// What it makes of a list, given what is right.
    Any(&'static str, fn(&[u8], Tested) -> Tested),
    /// It gives another answer for a right one: first the right one.
    Answer(&'static str, u8, u8),
    /// It sees nothing in such rows that open a security resource.
    Overlooks(&'static str, fn(&Access) -> bool),
    /// It takes such rows for ones that open a security resource.
    Minds(&'static str, fn(&Access) -> bool),
}

impl Mutant {
    /// What it makes of a list, given what is right.
    pub fn run(&self, list: &[u8], right: Tested) -> Tested {
        match *self {
            Any(_, run) => run(list, right),
            Answer(_, from, to) if right.answer == from => Tested { answer: to, ..right },
            Answer(..) => right,
            Overlooks(_, harmless) => match named_row(list, right) {
                // The rest of the list is tested without that row.
                Some(row) if right.answer == TEST_EXCESSIVE && harmless(&row) => after_the_named_row(list, right),
                _ => right,
            },
            Minds(_, harmful) => minding(list, right, harmful),
        }
    }

    /// What it does, for a sentence that begins with "a mutant that".
    pub fn name(&self) -> &'static str {
        let (Any(name, ..) | Answer(name, ..) | Overlooks(name, ..) | Minds(name, ..)) = self;
        name
    }
}

const ACCEPTED: Tested = refused(PERMITTED);

/// A list with as many rows as the tables hold, in bytes.
const FULL_LIST: usize = Access::CAPACITY * Access::BODY_SIZE;
const ONE_TOO_MANY: usize = Access::CAPACITY + 1;

/// What a last row has that lacks a byte.
const SHORT_ROW: usize = Access::BODY_SIZE - 1;

/// An answer that names no row.
const fn refused(answer: u8) -> Tested {
    Tested { answer, row: 0 }
}

/// The rows of a list as far as they are whole.
fn whole_rows(list: &[u8]) -> &[u8] {
    &list[..list.len() / Access::BODY_SIZE * Access::BODY_SIZE]
}

/// The row that is named, if it could be stored.
fn named_row(list: &[u8], right: Tested) -> Option<Access> {
    let at = right.row.checked_sub(1)?;
    Access::read(&list[at * Access::BODY_SIZE..][..Access::BODY_SIZE])
}

/// The test of the rows after the named one.
fn after_the_named_row(list: &[u8], right: Tested) -> Tested {
    match test(&list[right.row * Access::BODY_SIZE..]) {
        Tested { answer: answer @ (TEST_NOT_STORABLE | TEST_EXCESSIVE), row } => {
            Tested { answer, row: right.row + row }
        }
        other => other,
    }
}

fn minding(list: &[u8], right: Tested, harmful: fn(&Access) -> bool) -> Tested {
    if right.answer == TEST_BAD_SIZE {
        return right;
    }
    let before = if right.answer == PERMITTED { usize::MAX } else { right.row - 1 };
    let rows = list.chunks_exact(Access::BODY_SIZE).take(before).map(|row| Access::read(row).expect("clean"));
    match (1..).zip(rows).find(|(_, row)| harmful(row)) {
        Some((row, _)) => Tested { answer: TEST_EXCESSIVE, row },
        None => right,
    }
}

/// Whether the row would open a security resource with other fields.
fn would_open(row: &Access, subject: Subject, permission: u8, set: u64) -> bool {
    opens_security(&Access { subject, permission, set, ..row.clone() })
}

pub const TABLE: &[Mutant] = &[
    Any("accepts all", |_, _| ACCEPTED),
    Answer("accepts none", PERMITTED, TEST_BAD_SIZE),
    Any("accepts no empty list", |list, right| if list.is_empty() { refused(TEST_BAD_SIZE) } else { right }),
    Any("never says 19", |list, right| match right.answer {
        TEST_BAD_SIZE => test(&whole_rows(list)[..whole_rows(list).len().min(FULL_LIST)]),
        _ => right,
    }),
    Any("looks at whole rows only", |list, _| test(whole_rows(list))),
    Any("takes a row of a byte less", |list, right| match list.len() % Access::BODY_SIZE {
        SHORT_ROW => test(whole_rows(list)),
        _ => right,
    }),
    Any("takes 33 rows", |list, right| match list.len() / Access::BODY_SIZE {
        ONE_TOO_MANY => test(&list[Access::BODY_SIZE..]),
        _ => right,
    }),
    Any("takes 31 rows at most", |list, right| match list.len() / Access::BODY_SIZE {
        Access::CAPACITY => refused(TEST_BAD_SIZE),
        _ => right,
    }),
    Any("looks at 32 rows of a longer list", |list, right| match list.len() / Access::BODY_SIZE {
        ONE_TOO_MANY.. => test(&list[..FULL_LIST]),
        _ => right,
    }),
    Any("looks at the rows before the length", |list, right| {
        let rows = whole_rows(list);
        match right.answer {
            TEST_BAD_SIZE if rows.len() <= FULL_LIST && test(rows).answer != PERMITTED => test(rows),
            _ => right,
        }
    }),
    Any("names the row after the last with 19", |list, right| match right.answer {
        TEST_BAD_SIZE => Tested { answer: TEST_BAD_SIZE, row: list.len() / Access::BODY_SIZE + 1 },
        _ => right,
    }),
    Any("names rows from 0", |_, right| Tested { row: right.row.saturating_sub(1), ..right }),
    Any("names no row", |_, right| Tested { row: 0, ..right }),
    Any("names the number of the row", |list, right| match named_row(list, right) {
        Some(row) => Tested { row: row.number.into(), ..right },
        None => right,
    }),
    Any("names the byte where the row begins", |_, right| Tested {
        row: right.row.saturating_sub(1) * Access::BODY_SIZE,
        ..right
    }),
    Any("names the second bad row", |list, right| match after_the_named_row(list, right) {
        other @ Tested { answer: TEST_NOT_STORABLE | TEST_EXCESSIVE, .. } if right.row > 0 => other,
        _ => right,
    }),
    Any("names the row that has the number already", |list, right| {
        let rows: Vec<&[u8]> = list.chunks(Access::BODY_SIZE).collect();
        match named_row(list, right) {
            Some(_) if right.answer == TEST_NOT_STORABLE => {
                let number = &rows[right.row - 1][NUMBER];
                let earlier = rows.iter().position(|row| &row[NUMBER] == number).expect("an earlier one");
                Tested { row: earlier + 1, ..right }
            }
            _ => right,
        }
    }),
    Any("looks at the first row only", |_, right| if right.row > 1 { ACCEPTED } else { right }),
    Any("leaves the last row out", |list, right| {
        if right.row > 0 && right.row == list.len() / Access::BODY_SIZE {
            ACCEPTED
        } else {
            right
        }
    }),
    Answer("says 21 for 20", TEST_NOT_STORABLE, TEST_EXCESSIVE),
    Answer("says 10 for 20", TEST_NOT_STORABLE, MALFORMED),
    Any("does not look for an earlier number", |list, right| match named_row(list, right) {
        Some(_) if right.answer == TEST_NOT_STORABLE => after_the_named_row(list, right),
        _ => right,
    }),
    Any("looks for the number in the row before alone", |list, right| match named_row(list, right) {
        Some(row) if right.answer == TEST_NOT_STORABLE => {
            let before =
                Access::read(&list[(right.row - 2) * Access::BODY_SIZE..][..Access::BODY_SIZE]).expect("clean");
            if before.number == row.number {
                right
            } else {
                after_the_named_row(list, right)
            }
        }
        _ => right,
    }),
    Any("compares the low byte of numbers", |list, right| match right.answer {
        TEST_BAD_SIZE => right,
        _ => {
            let rows: Vec<&[u8]> = list.chunks(Access::BODY_SIZE).collect();
            let bad = |&place: &usize| rows[..place].iter().any(|earlier| earlier[1] == rows[place][1]);
            match (0..rows.len()).find(bad).map(|place| place + 1) {
                Some(row) if right.answer == PERMITTED || row < right.row => Tested { answer: TEST_NOT_STORABLE, row },
                _ => right,
            }
        }
    }),
    Any("says 21 before 20", |list, right| {
        let Some(row) = named_row(list, right) else {
            return right;
        };
        if opens_security(&row) {
            Tested { answer: TEST_EXCESSIVE, ..right }
        } else {
            right
        }
    }),
    Any("says 20 for any row before 21 for any", |list, right| match right.answer {
        TEST_EXCESSIVE => {
            let harmless: Vec<u8> = list
                .chunks(Access::BODY_SIZE)
                .flat_map(|row| match Access::read(row) {
                    Some(row) => Access { permission: 0, ..row }.bytes(),
                    None => row.to_vec(),
                })
                .collect();
            match test(&harmless) {
                other @ Tested { answer: TEST_NOT_STORABLE, .. } => other,
                _ => right,
            }
        }
        _ => right,
    }),
    Overlooks("never says 21", |_| true),
    Overlooks("does not mind roles", |row| matches!(row.subject, Subject::Role(_))),
    Overlooks("does not mind connections", |row| matches!(row.subject, Subject::Connection(_))),
    Overlooks("does not mind auth-crypt", |row| row.subject == AUTH),
    Overlooks("does not mind anon-clear", |row| row.subject == ANON),
    Overlooks("does not mind create", |row| !would_open(row, row.subject, row.permission & !MAY_CREATE, row.set)),
    Overlooks("does not mind update", |row| !would_open(row, row.subject, row.permission & !MAY_UPDATE, row.set)),
    Overlooks("does not mind delete", |row| !would_open(row, row.subject, row.permission & !MAY_DELETE, row.set)),
    Overlooks("minds acl2 alone", |row| !would_open(row, row.subject, row.permission, row.set & set_bit(ACL2))),
    Overlooks("does not mind a season", |row| row.period != Period::ALWAYS),
    Minds("minds a UUID", |row| would_open(row, AUTH, row.permission, row.set)),
    Minds("minds retrieve and notify", |row| row.permission != 0 && would_open(row, row.subject, MAY_ALL, row.set)),
    Minds("minds application resources", |row| {
        row.set != 0 && would_open(row, row.subject, row.permission, set_bit(ACL2))
    }),
    Minds("has wildcards reach security resources", |row| {
        row.wildcards != Default::default() && would_open(row, row.subject, row.permission, set_bit(ACL2))
    }),
];
