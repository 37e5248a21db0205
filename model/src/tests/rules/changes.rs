//! Changes of the tables: rows, owners and states.

use super::*;
use crate::answers::{BAD_LENGTH, BAD_TARGET, MALFORMED, NOT_PERMITTED, NOT_SOUND, PERMITTED};
use crate::directory::{ACL2, CRED, DOXM, PSTAT, WEIGHT};
use crate::record::{MAY_ALL, MAY_DELETE, MAY_RETRIEVE, MAY_UPDATE};
use crate::tables::{MINUS, PLUS, RFPRO, STAR};

#[test]
fn rows_come_and_go() {
    let mut tables = Tables::fresh();
    for number in [3, 1, 2] {
        tables = after(&tables, &compose(Verb::Update, CRED, 0, &credential(number, uuid(0x22)).bytes()));
        tables =
            after(&tables, &compose(Verb::Update, ACL2, 0, &access(number, AUTH, MAY_RETRIEVE, 0, &[WEIGHT]).bytes()));
    }
    assert_eq!(numbers(&tables.credentials), [3, 1, 2]);
    // Replaced where it was.
    tables = after(&tables, &compose(Verb::Update, CRED, 0, &credential(1, uuid(0x33)).bytes()));
    assert_eq!(tables.credentials, [credential(3, uuid(0x22)), credential(1, uuid(0x33)), credential(2, uuid(0x22))]);
    tables = after(
        &tables,
        &compose(Verb::Update, ACL2, 0, &access(3, ANON, MAY_ALL, PLUS | MINUS | STAR, &[DOXM]).bytes()),
    );
    assert_eq!(numbers(&tables.accesses), [3, 1, 2]);
    assert_eq!(tables.accesses[0], access(3, ANON, MAY_ALL, PLUS | MINUS | STAR, &[DOXM]));
    // Closed up.
    tables = after(&tables, &compose(Verb::Delete, CRED, 0, &[0, 3]));
    assert_eq!(numbers(&tables.credentials), [1, 2]);
    assert_eq!(numbers(&tables.accesses), [3, 1, 2]);
    tables = after(&tables, &compose(Verb::Delete, ACL2, 0, &[0, 1]));
    assert_eq!(numbers(&tables.accesses), [3, 2]);
    tables = after(&tables, &compose(Verb::Delete, ACL2, 0, &[]));
    assert_eq!(numbers(&tables.accesses), []);
    assert_eq!(numbers(&tables.credentials), [1, 2]);
}

#[test]
fn owners_are_set() {
    let mut tables = owned(State::Sreset);
    for resource in DOXM..=ACL2 {
        let owner = Some(uuid(0x40 + resource));
        tables = after(&tables, &compose(Verb::Update, resource, 5, &uuid_bytes(owner)));
        assert_eq!(tables.row_owners[resource as usize], owner);
    }
    tables = after(&tables, &compose(Verb::Update, ACL2, 5, &[0; 16]));
    assert_eq!(tables.row_owners[3], None);
    tables = after(&tables, &compose(Verb::Update, DOXM, 5, &device_owner_body(Some(uuid(0x77)))));
    assert_eq!(tables.device_owner, Some(uuid(0x77)));
    // Row 5 is the owner no longer, and owns no row of pstat.
    assert_eq!(
        judged(&tables.bytes(), &compose(Verb::Update, PSTAT, 5, &target_body(RFPRO))).response.answer,
        NOT_PERMITTED
    );
    let tables = after(&owned(State::Rfotm), &compose(Verb::Update, DOXM, 5, &device_owner_body(None)));
    assert!(!tables.owned());
}

#[test]
fn moves_between_states() {
    let listed = |tables: Tables| -> Vec<u8> {
        let sender = if tables.owned() { 5 } else { 0 };
        (0..=4)
            .filter(|&target| {
                let outcome = judged(&tables.bytes(), &compose(Verb::Update, PSTAT, sender, &target_body(target)));
                match outcome.response.answer {
                    0 if target == 0 => assert_eq!(outcome.tables, fresh_bytes()),
                    0 => {
                        let moved = Tables { state: State::from_number(target).unwrap(), ..tables.clone() };
                        assert_eq!(outcome.tables, moved.bytes());
                    }
                    answer => assert_eq!(answer, BAD_TARGET),
                }
                outcome.response.answer == PERMITTED
            })
            .collect()
    };
    assert_eq!(listed(Tables::fresh()), [0]);
    assert_eq!(listed(owned(State::Rfotm)), [0, 2]);
    assert_eq!(listed(owned(State::Rfpro)), [0, 3, 4]);
    assert_eq!(listed(owned(State::Rfnop)), [0, 2, 4]);
    assert_eq!(listed(owned(State::Sreset)), [0, 2]);
}

#[test]
fn writes_by_state() {
    let bodies: [(u8, Vec<u8>); 5] = [
        (0, device_owner_body(Some(uuid(0x77)))),
        (0, device_owner_body(None)),
        (1, vec![0x77; 16]),
        (2, credential(9, uuid(0x22)).bytes()),
        (3, access(9, ANON, MAY_RETRIEVE, 0, &[WEIGHT]).bytes()),
    ];
    let answers = |state| {
        bodies.clone().map(|(resource, body)| {
            judged(&owned(state).bytes(), &compose(Verb::Update, resource, 5, &body)).response.answer
        })
    };
    assert_eq!(answers(State::Rfotm), [0, 0, 0, 0, 0]);
    assert_eq!(answers(State::Rfpro), [11, 11, 11, 0, 0]);
    assert_eq!(answers(State::Rfnop), [11, 11, 11, 11, 11]);
    assert_eq!(answers(State::Sreset), [0, 11, 0, 0, 0]);
    let deletes = State::ALL.map(|state| {
        let one = judged(&owned(state).bytes(), &compose(Verb::Delete, CRED, 5, &[0, 5])).response.answer;
        let missing = judged(&owned(state).bytes(), &compose(Verb::Delete, ACL2, 5, &[0, 5])).response.answer;
        let all = judged(&owned(state).bytes(), &compose(Verb::Delete, ACL2, 5, &[])).response.answer;
        [one, missing, all]
    });
    assert_eq!(deletes, [[0, 13, 0], [0, 13, 0], [11, 11, 11], [0, 13, 0]]);
}

#[test]
fn the_payload_is_all_behind_the_header() {
    let mut tables = owned(State::Rfnop);
    tables.accesses.push(access(1, ANON, MAY_ALL, STAR, &[]));
    for length in [0, 1, 100, 252] {
        for verb in Verb::ALL {
            let outcome = judged(&tables.bytes(), &compose(verb, WEIGHT, 0, &vec![7; length]));
            assert_eq!((outcome.response.answer, outcome.response.permission), (PERMITTED, MAY_ALL));
            assert_eq!(outcome.response.payload, 4..4 + length);
            assert_eq!(outcome.tables, tables.bytes());
        }
    }
    assert_eq!(judged(&tables.bytes(), &compose(Verb::Update, WEIGHT, 0, &[7; 253])).response.answer, BAD_LENGTH);
}

#[test]
fn permission_is_that_before_the_change() {
    // The record takes away what permitted it.
    let outcome = judged(&owned(State::Rfpro).bytes(), &compose(Verb::Delete, CRED, 5, &[]));
    assert_eq!((outcome.response.answer, outcome.response.permission), (PERMITTED, MAY_ALL));
    let mut tables = owned(State::Rfpro);
    tables.accesses.push(access(1, ANON, MAY_UPDATE | MAY_DELETE, 0, &[ACL2]));
    let outcome = judged(&tables.bytes(), &compose(Verb::Delete, ACL2, 0, &[]));
    assert_eq!((outcome.response.answer, outcome.response.permission), (PERMITTED, MAY_UPDATE | MAY_DELETE));
}

#[test]
fn a_short_body_stores_authority_0() {
    let role = Role { authority: 0, number: 7 };
    let row = Credential { role: Some(role), ..credential(6, uuid(0x66)) };
    let mut tables = Tables::fresh();
    tables = after(&tables, &compose(Verb::Update, CRED, 0, &row.short_body()));
    assert_eq!(tables.credentials, from_ref(&row));
    let stored = tables.bytes();
    assert_eq!(stored[84..107], row.bytes());
    assert_eq!(stored[84 + 20..84 + 22], [0, 0]);
    // It takes an authority away from the row that it replaces.
    let other = Credential { role: Some(Role { authority: 3, ..role }), ..row.clone() };
    tables = after(&tables, &compose(Verb::Update, CRED, 0, &other.bytes()));
    assert_eq!(tables.credentials, from_ref(&other));
    tables = after(&tables, &compose(Verb::Update, CRED, 0, &other.short_body()));
    assert_eq!(tables.credentials, from_ref(&row));
    // An authority without a role is forbidden, in a body and in the tables.
    let mut body = row.bytes();
    body[18..22].copy_from_slice(&[0, 0, 0, 1]);
    assert_eq!(judged(&fresh_bytes(), &compose(Verb::Update, CRED, 0, &body)).response.answer, MALFORMED);
    let mut stored = tables.bytes();
    stored[84..107].copy_from_slice(&body);
    assert_eq!(judged(&stored, &compose(Verb::Retrieve, CRED, 0, &[])).response.answer, NOT_SOUND);
    stored[84 + 21] = 0;
    assert_eq!(judged(&stored, &compose(Verb::Retrieve, CRED, 0, &[])).response.answer, PERMITTED);
}

#[test]
fn a_short_body_holds_for_every_second() {
    let row = access(6, ANON, MAY_RETRIEVE, 0, &[WEIGHT]);
    let mut tables = Tables::fresh();
    tables = after(&tables, &compose(Verb::Update, ACL2, 0, &row.short_body()));
    assert_eq!(tables.accesses, from_ref(&row));
    assert_eq!(tables.bytes()[1020..1056], row.bytes());
    assert_eq!(tables.bytes()[1020 + 28..1056], [0, 0, 0, 0, 0xFF, 0xFF, 0xFF, 0xFF]);
    // It takes a period away from the row that it replaces.
    let season = with_period(row.clone(), 10, 20);
    tables = after(&tables, &compose(Verb::Update, ACL2, 0, &season.bytes()));
    assert_eq!(tables.accesses, from_ref(&season));
    tables = after(&tables, &compose(Verb::Update, ACL2, 0, &season.short_body()));
    assert_eq!(tables.accesses, from_ref(&row));
    // A period that ends before it begins, in a body and in the tables.
    let mut body = season.bytes();
    body[35] = 9;
    assert_eq!(judged(&fresh_bytes(), &compose(Verb::Update, ACL2, 0, &body)).response.answer, MALFORMED);
    let mut stored = tables.bytes();
    stored[1020..1056].copy_from_slice(&body);
    assert_eq!(judged(&stored, &compose(Verb::Retrieve, CRED, 0, &[])).response.answer, NOT_SOUND);
    stored[1055] = 10;
    assert_eq!(judged(&stored, &compose(Verb::Retrieve, CRED, 0, &[])).response.answer, PERMITTED);
}
