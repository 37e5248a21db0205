//! Tests of the question whether senders are isolated.

use super::*;
use crate::directory::{ACL2, CRED, DOXM, PSTAT, ROLES, WEIGHT};
use crate::examples::{access, credential, owned, role, uuid, ANON, AUTH};
use crate::record::{compose, device_owner_body, target_body, MAY_ALL, MAY_RETRIEVE, MAY_UPDATE};
use crate::tables::{uuid_bytes, Period, Row, State, MINUS, PLUS, RFPRO, STAR, STATE};

const ANY: u8 = PLUS | MINUS | STAR;

/// Partner 5 owns the terminal, 7 and 8 are hauliers, and everybody may read the
/// weight.
fn yard() -> Tables {
    let mut tables = owned(State::Sreset);
    tables.credentials.push(credential(7, uuid(0x22)));
    tables.credentials.push(credential(8, uuid(0x33)));
    tables.accesses = vec![access(1, AUTH, MAY_RETRIEVE, 0, &[WEIGHT]), access(2, ANON, MAY_RETRIEVE, 0, &[WEIGHT])];
    tables
}

fn answer(tables: &Tables, senders: &[u8]) -> (u8, usize, usize) {
    let Isolation { reason, entry, row } = ask(&tables.bytes(), senders);
    (reason, entry, row)
}

#[test]
fn answers_by_hand() {
    let yard = yard();
    assert_eq!(answer(&yard, &[]), (0, 0, 0));
    assert_eq!(answer(&yard, &[0, 7]), (0, 0, 0));
    assert_eq!(answer(&yard, &[0, 7, 0, 0, 0, 8, 0, 7]), (0, 0, 0));
    assert_eq!(answer(&yard, &[0, 5]), (4, 1, 0));
    assert_eq!(answer(&yard, &[0, 7, 0, 8, 0, 5]), (4, 3, 0));
    assert_eq!(answer(&yard, &[0, 7, 0]), (1, 0, 0));
    assert_eq!(answer(&yard, &[0]), (1, 0, 0));
    // An empty list needs no owner.
    assert_eq!(answer(&Tables::fresh(), &[]), (0, 0, 0));
    assert_eq!(answer(&Tables::fresh(), &[0, 0]), (3, 0, 0));
    // An odd length comes before tables that are not sound, and these before all else.
    let mut stored = yard.bytes();
    stored[STATE] = 5;
    assert_eq!(ask(&stored, &[0, 7, 0]), Isolation { reason: 1, entry: 0, row: 0 });
    assert_eq!(ask(&stored, &[]), Isolation { reason: 2, entry: 0, row: 0 });
}

#[test]
fn every_owner_counts() {
    for place in 0..4 {
        let mut tables = yard();
        tables.row_owners[place] = Some(uuid(0x22));
        assert_eq!(answer(&tables, &[0, 8, 0, 7]), (4, 2, 0));
        assert_eq!(answer(&tables, &[0, 8]), (0, 0, 0));
    }
}

#[test]
fn every_row_that_may_fit_counts() {
    let opens = |subject: Subject| {
        let mut tables = yard();
        tables.accesses.push(access(3, subject, MAY_UPDATE, 0, &[PSTAT]));
        tables
    };
    // A role that nobody has today, for any partner, one without a row too.
    assert_eq!(answer(&opens(role(0, 9)), &[0, 7]), (5, 1, 3));
    assert_eq!(answer(&opens(role(0, 9)), &[0, 0, 0, 200]), (5, 2, 3));
    assert_eq!(answer(&opens(role(0, 9)), &[0, 0]), (0, 0, 0));
    assert_eq!(answer(&opens(AUTH), &[0, 200]), (5, 1, 3));
    assert_eq!(answer(&opens(ANON), &[0, 7, 0, 0]), (5, 2, 3));
    assert_eq!(answer(&opens(Subject::Uuid(uuid(0x22))), &[0, 8, 0, 7]), (5, 2, 3));
    // A season that is over counts.
    let mut tables = opens(AUTH);
    tables.accesses[2].period = Period { first: 0, last: 0 };
    assert_eq!(answer(&tables, &[0, 7]), (5, 1, 3));
    // Reading does not count, nor does a wildcard, which reaches no security resource.
    tables.accesses[2] = access(3, AUTH, MAY_RETRIEVE, 0, &[PSTAT]);
    assert_eq!(answer(&tables, &[0, 7]), (0, 0, 0));
    tables.accesses[2] = access(3, AUTH, MAY_UPDATE, ANY, &[WEIGHT]);
    assert_eq!(answer(&tables, &[0, 7]), (0, 0, 0));
    // The roles are a security resource.
    tables.accesses[2] = access(3, AUTH, MAY_UPDATE, 0, &[ROLES]);
    assert_eq!(answer(&tables, &[0, 7]), (5, 1, 3));
}

#[test]
fn what_endangers() {
    let owner = uuid_bytes(Some(uuid(0x22)));
    let opens = access(9, AUTH, MAY_UPDATE, 0, &[ACL2]);
    let serves = access(9, AUTH, MAY_ALL, ANY, &[WEIGHT]);
    let update = |resource: u8, body: &[u8]| endangers(&compose(Verb::Update, resource, 5, body), &[0, 7]);
    for resource in [DOXM, PSTAT, CRED, ACL2] {
        assert!(update(resource, &owner));
    }
    assert!(update(DOXM, &device_owner_body(Some(uuid(0x22)))));
    assert!(update(PSTAT, &target_body(RESET)));
    assert!(!update(PSTAT, &target_body(RFPRO)));
    assert!(update(CRED, &credential(7, uuid(0x11)).bytes()));
    assert!(!update(CRED, &credential(8, uuid(0x22)).bytes()));
    assert!(update(ACL2, &opens.bytes()));
    assert!(!update(ACL2, &serves.bytes()));
    assert!(!update(ROLES, &[0, 1, 0, 9, 255, 255, 255, 255]));
    assert!(!update(WEIGHT, &owner));
    for verb in [Verb::Create, Verb::Retrieve, Verb::Delete, Verb::Observe] {
        for resource in 0..64 {
            assert!(!endangers(&compose(verb, resource, 5, &owner), &[0, 7]));
        }
    }
}

#[test]
fn whose_record_it_is() {
    assert_eq!(sender_of(&[0x50, 0x40, 0]), None);
    assert_eq!(sender_of(&[0x50, 0x40, 0, 7]), Some(7));
    assert_eq!(sender_of(&[0x40, 0x40, 0, 7]), None);
    assert_eq!(entries(&[0, 0, 1, 2, 9]).collect::<Vec<Sender>>(), [None, Some(0x102)]);
    assert_eq!(list_of(&[None, Some(0x102)]), [0, 0, 1, 2]);
}
