//! Deletes, and the rows to store after them.

use super::*;
use crate::answers::PERMITTED;
use crate::directory::{ACL2, CRED, PSTAT, ROLES, WEIGHT};
use crate::record::{MAY_ALL, MAY_RETRIEVE};
use crate::tables::{ACCESSES, CREDENTIALS, RESET, STAR};

#[test]
fn a_subject_is_removed_in_one_go() {
    let mut tables = owned(State::Rfpro);
    for (number, byte) in [(9, 0x22), (3, 0x33), (7, 0x22), (1, 0x44), (4, 0x22)] {
        tables.credentials.push(credential(number, uuid(byte)));
    }
    tables.accesses.push(access(1, Subject::Uuid(uuid(0x22)), MAY_RETRIEVE, STAR, &[]));
    let left = after(&tables, &compose(Verb::Delete, CRED, 5, &[0x22; 16]));
    assert_eq!(numbers(&left.credentials), [5, 3, 1]);
    assert_eq!(left.accesses, tables.accesses);
    // A single one, the last, the sender's own, then all.
    let left = after(&left, &compose(Verb::Delete, CRED, 5, &[0x33; 16]));
    assert_eq!(numbers(&left.credentials), [5, 1]);
    let left = after(&left, &compose(Verb::Delete, CRED, 5, &[0x44; 16]));
    assert_eq!(numbers(&left.credentials), [5]);
    let left = after(&left, &compose(Verb::Delete, CRED, 5, &[0x11; 16]));
    assert!(left.credentials.is_empty());
}

#[test]
fn the_rest_keeps_its_order() {
    let mut random = Random::new(14);
    for _ in 0..2000 {
        let tables = Tables { device_owner: None, state: State::Rfotm, ..generate::any_sound(&mut random) };
        let subject = generate::uuid(&mut random);
        let outcome = judged(&tables.bytes(), &compose(Verb::Delete, CRED, 0, &uuid_bytes(Some(subject))));
        let mut rest = tables.clone();
        rest.credentials.retain(|row| row.subject != subject);
        let none = rest == tables;
        assert_eq!(outcome.response.answer, if none { 13 } else { 0 });
        assert_eq!(outcome.response.permission, if none { 0 } else { 31 });
        assert_eq!(outcome.tables, rest.bytes());
    }
}

#[test]
fn subjects_that_are_refused() {
    let mut tables = owned(State::Rfpro);
    tables.accesses.push(access(1, Subject::Uuid(uuid(0x22)), MAY_RETRIEVE, STAR, &[]));
    let answer = |tables: &Tables, resource, sender, body: &[u8]| {
        judged(&tables.bytes(), &compose(Verb::Delete, resource, sender, body)).response.answer
    };
    // Nil is no subject, and acl2 knows none.
    assert_eq!(answer(&tables, 2, 5, &[0; 16]), 10);
    assert_eq!(answer(&tables, 3, 5, &[0x22; 16]), 10);
    assert_eq!(answer(&tables, 3, 5, &[0; 16]), 10);
    assert_eq!(answer(&tables, 0, 5, &[0x11; 16]), 9);
    assert_eq!(answer(&tables, 2, 5, &[0x11; 15]), 10);
    assert_eq!(answer(&tables, 2, 5, &[0x11; 17]), 10);
    // No credential has the subject of the access row.
    assert_eq!(answer(&tables, 2, 5, &[0x22; 16]), 13);
    assert_eq!(answer(&Tables::fresh(), 2, 0, &[0x22; 16]), 13);
    // Permission and state come first.
    assert_eq!(answer(&tables, 2, 0, &[0x22; 16]), 8);
    assert_eq!(answer(&owned(State::Rfnop), 2, 5, &[0x11; 16]), 11);
    assert_eq!(answer(&owned(State::Rfnop), 2, 5, &[0x22; 16]), 11);
    assert_eq!(answer(&owned(State::Rfnop), 2, 5, &[0; 16]), 10);
    for state in [State::Rfotm, State::Sreset] {
        assert_eq!(answer(&owned(state), 2, 5, &[0x11; 16]), 0);
    }
}

#[test]
fn places_by_hand() {
    let mut tables = owned(State::Rfpro);
    for (number, byte) in [(9, 0x22), (3, 0x33), (7, 0x22), (1, 0x44)] {
        tables.credentials.push(credential(number, uuid(byte)));
    }
    let places = |tables: &Tables, record: &[u8]| {
        let outcome = judged(&tables.bytes(), record);
        assert_eq!(outcome.response.answer, PERMITTED);
        (outcome.response.store.start, outcome.response.store.len())
    };
    let delete = |body: &[u8]| places(&tables, &compose(Verb::Delete, CRED, 5, body));
    assert_eq!(delete(&[0, 5]), (0, 5));
    assert_eq!(delete(&[0, 9]), (1, 4));
    assert_eq!(delete(&[0, 7]), (3, 2));
    assert_eq!(delete(&[0, 1]), (4, 1));
    assert_eq!(delete(&[]), (0, 5));
    assert_eq!(delete(&[0x22; 16]), (1, 4));
    assert_eq!(delete(&[0x33; 16]), (2, 3));
    assert_eq!(delete(&[0x44; 16]), (4, 1));
    // Nothing found to delete, and other requests.
    assert_eq!(places(&tables, &compose(Verb::Delete, ACL2, 5, &[])), (0, 0));
    assert_eq!(places(&Tables::fresh(), &compose(Verb::Delete, CRED, 0, &[])), (0, 0));
    assert_eq!(places(&tables, &compose(Verb::Update, PSTAT, 5, &target_body(RESET))), (0, 0));
    assert_eq!(places(&tables, &compose(Verb::Update, CRED, 5, &credential(7, uuid(0x55)).bytes())), (0, 0));
    assert_eq!(places(&tables, &compose(Verb::Update, CRED, 5, &credential(8, uuid(0x55)).bytes())), (0, 0));
    let open = Tables { accesses: vec![access(1, ANON, MAY_ALL, STAR, &[])], ..owned(State::Rfnop) };
    assert_eq!(places(&open, &compose(Verb::Delete, WEIGHT, 0, &[])), (0, 0));
    assert_eq!(judged(&tables.bytes(), &compose(Verb::Delete, CRED, 5, &[0, 99])).response.store, 0..0);
}

/// The numbers of all rows of a table, 0 where it is unused.
fn numbers_at_places<R: Row>(rows: &[R]) -> Vec<u16> {
    let mut numbers = numbers(rows);
    numbers.resize(R::CAPACITY, 0);
    numbers
}

#[test]
fn just_the_reported_places_hold_another_number() {
    let mut random = Random::new(15);
    let mut counts = [0; 3];
    for _ in 0..8_000 {
        let before = Tables { device_owner: None, state: State::Rfotm, ..generate::any_sound(&mut random) };
        let resource = random.pick(&[CRED, ACL2]);
        let held = if resource == CRED { numbers(&before.credentials) } else { numbers(&before.accesses) };
        let form = random.below(4);
        let body = match form {
            0 => Vec::new(),
            1 if resource == CRED => uuid_bytes(Some(generate::uuid(&mut random))).to_vec(),
            _ if held.is_empty() => vec![0, 1],
            _ => random.pick(&held).to_be_bytes().to_vec(),
        };
        let outcome = judged(&before.bytes(), &compose(Verb::Delete, resource, 0, &body));
        let places = outcome.response.store;
        let after = Tables::read(&outcome.tables).expect("sound");
        let changed = |one: Vec<u16>, other: Vec<u16>| -> Vec<usize> {
            (0..one.len()).filter(|&place| one[place] != other[place]).collect()
        };
        let credentials = changed(numbers_at_places(&before.credentials), numbers_at_places(&after.credentials));
        let accesses = changed(numbers_at_places(&before.accesses), numbers_at_places(&after.accesses));
        let (here, there) = if resource == CRED { (credentials, accesses) } else { (accesses, credentials) };
        assert_eq!(here, places.clone().collect::<Vec<usize>>());
        assert_eq!(there, []);
        if outcome.response.answer != PERMITTED || held.is_empty() {
            assert_eq!(places, 0..0);
        } else {
            counts[form.min(2)] += 1;
            assert_eq!(places.end, held.len());
        }
        // Stored alone, these rows make the new table of the old one.
        let (start, length) = if resource == CRED {
            (CREDENTIALS.start, Credential::ROW_SIZE)
        } else {
            (ACCESSES.start, Access::ROW_SIZE)
        };
        let mut stored = before.bytes();
        let bytes = start + places.start * length..start + places.end * length;
        stored[bytes.clone()].copy_from_slice(&outcome.tables[bytes]);
        stored[..84].copy_from_slice(&outcome.tables[..84]);
        assert_eq!(stored, outcome.tables);
    }
    assert!(counts.iter().all(|&count| count > 300), "{counts:?}");
}

#[test]
fn only_a_permitted_delete_reports_places() {
    let mut random = Random::new(16);
    for _ in 0..8_000 {
        let tables = generate::any_sound(&mut random).bytes();
        let record = generate::record(&mut random, generate::Style::Mixed, &tables, 0);
        let outcome = judged(&tables, &record);
        let deletes = record.len() >= HEADER_SIZE
            && Header::read(&record).verb == Verb::Delete as u8
            && Header::read(&record).resource < ROLES;
        assert_eq!(
            !outcome.response.store.is_empty(),
            outcome.response.answer == PERMITTED && deletes && outcome.tables != tables
        );
        if outcome.response.store.is_empty() {
            assert_eq!(outcome.response.store, 0..0);
        }
    }
}
