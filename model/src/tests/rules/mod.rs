//! Tests of the rules, by what they are about, and what these tests share.

mod changes;
mod deletes;
mod links;
mod permission;
mod replies;
mod roles;

use super::*;
use std::slice::from_ref;

use crate::answers::PERMITTED;
use crate::examples::{access, asserted, credential, owned, role, uuid, ANON, AUTH};
use crate::generate;
use crate::hex;
use crate::random::Random;
use crate::record::compose;
use crate::tables::{fresh_bytes, Period, Role};
/// With a buffer that fits any reply.
fn judged(tables: &TableBytes, record: &[u8]) -> Outcome {
    judge(&Case::new(tables, record))
}

/// The tables after a record that is permitted.
fn after(tables: &Tables, record: &[u8]) -> Tables {
    let outcome = judged(&tables.bytes(), record);
    assert_eq!(outcome.response.answer, PERMITTED);
    assert_eq!(outcome.response.payload, 0..0);
    Tables::read(&outcome.tables).expect("sound")
}

fn numbers<R: Row>(rows: &[R]) -> Vec<u16> {
    rows.iter().map(Row::number).collect()
}

fn with_period(row: Access, first: u32, last: u32) -> Access {
    Access { period: Period::new(first, last).expect("a period"), ..row }
}

fn retrieve(tables: &Tables, resource: u8, sender: u16, capacity: usize) -> Outcome {
    judge(&Case { capacity, ..Case::new(&tables.bytes(), &compose(Verb::Retrieve, resource, sender, &[])) })
}
