//! The effective permission: roles, periods, wildcards.

use super::*;
use crate::answers::{NOT_PERMITTED, PERMITTED};
use crate::directory::{ACL2, CRED, DOXM, PSTAT, TARE, WEIGHT};
use crate::record::{MAY_ALL, MAY_CREATE, MAY_DELETE, MAY_NOTIFY, MAY_RETRIEVE, MAY_UPDATE};
use crate::tables::STAR;

#[test]
fn a_role_fits_only_with_its_authority() {
    let answer = |held: Option<(u16, u16)>, wanted: (u16, u16)| {
        let role = |(authority, number)| Role { authority, number };
        let mut tables = owned(State::Rfnop);
        tables.credentials.push(Credential { role: held.map(role), ..credential(6, uuid(0x66)) });
        tables.accesses.push(access(1, Subject::Role(role(wanted)), MAY_RETRIEVE, STAR, &[]));
        judged(&tables.bytes(), &compose(Verb::Retrieve, WEIGHT, 6, &[])).response.answer
    };
    for (authority, number) in [(0, 7), (1, 7), (7, 1), (7, 7), (0xFFFF, 0xFFFF)] {
        assert_eq!(answer(Some((authority, number)), (authority, number)), PERMITTED);
        assert_eq!(answer(None, (authority, number)), NOT_PERMITTED);
        for bit in 0..16 {
            assert_eq!(answer(Some((authority, number)), (authority ^ 1 << bit, number)), NOT_PERMITTED);
            assert_eq!(answer(Some((authority ^ 1 << bit, number)), (authority, number)), NOT_PERMITTED);
        }
    }
    assert_eq!(answer(Some((1, 7)), (7, 1)), NOT_PERMITTED);
    assert_eq!(answer(Some((0x0100, 7)), (0x0001, 7)), NOT_PERMITTED);
}

#[test]
fn a_row_fits_from_its_first_second_to_its_last() {
    let permission = |rows: &[Access], clock| {
        let tables = Tables { accesses: rows.to_vec(), ..owned(State::Rfnop) };
        let case = Case { clock, ..Case::new(&tables.bytes(), &compose(Verb::Retrieve, WEIGHT, 0, &[7])) };
        let outcome = judge(&case);
        // The clock changes and leaves nothing.
        assert_eq!(outcome.tables, case.tables);
        if outcome.response.answer != PERMITTED {
            assert_eq!(outcome.response.answer, NOT_PERMITTED);
            assert_eq!((outcome.response.permission, outcome.response.payload), (0, 0..0));
            return 0;
        }
        assert_eq!(outcome.response.payload, 4..5);
        outcome.response.permission
    };
    let row = access(1, ANON, MAY_RETRIEVE, 0, &[WEIGHT]);
    const MAX: u32 = u32::MAX;
    for (first, last) in [(1000, 2000), (7, 7), (0, 0), (0, 5), (5, MAX), (MAX, MAX), (0x7FFF_FFFF, 0x8000_0000)] {
        let rows = [with_period(row.clone(), first, last)];
        for clock in [first, last, first + (last - first) / 2] {
            assert_eq!(permission(&rows, clock), 2);
        }
        for clock in [first.checked_sub(1), last.checked_add(1)].into_iter().flatten() {
            assert_eq!(permission(&rows, clock), 0);
        }
        assert_eq!(permission(&rows, 0), if first == 0 { 2 } else { 0 });
        assert_eq!(permission(&rows, MAX), if last == MAX { 2 } else { 0 });
    }
    // The union is that of the rows in force.
    let rows = [
        with_period(row.clone(), 10, 30),
        with_period(access(2, ANON, MAY_UPDATE, 0, &[WEIGHT]), 20, 40),
        with_period(access(3, ANON, MAY_CREATE, 0, &[TARE]), 0, 15),
        access(4, ANON, MAY_NOTIFY, 0, &[WEIGHT]),
    ];
    let found = [9, 10, 15, 19, 20, 30, 31, 40, 41].map(|clock| permission(&rows, clock));
    assert_eq!(found, [0, 18, 18, 18, 22, 22, 0, 0, 0]);
}

#[test]
fn owners_have_no_period() {
    let mut tables = owned(State::Rfpro);
    tables.accesses.push(with_period(access(1, AUTH, MAY_ALL, STAR, &[DOXM, PSTAT, CRED, ACL2]), 10, 20));
    for clock in [0, 9, 10, 20, 21, u32::MAX] {
        for tables in [&tables, &Tables::fresh()] {
            let sender = if tables.owned() { 5 } else { 0 };
            let record = compose(Verb::Retrieve, ACL2, sender, &[]);
            let outcome = judge(&Case { clock, ..Case::new(&tables.bytes(), &record) });
            assert_eq!((outcome.response.answer, outcome.response.permission), (PERMITTED, MAY_ALL));
            // All rows are replied, whatever the clock.
            assert_eq!(outcome.response.reply.len(), 16 + 36 * tables.accesses.len());
        }
    }
}

#[test]
fn the_permission_of_a_change_is_that_of_its_clock() {
    let mut tables = owned(State::Rfpro);
    tables.accesses.push(with_period(access(1, ANON, MAY_UPDATE | MAY_DELETE, 0, &[ACL2]), 10, 20));
    for (clock, answer, permission) in [(9, 8, 0), (10, 0, 12), (20, 0, 12), (21, 8, 0)] {
        let record = compose(Verb::Update, ACL2, 0, &access(9, ANON, MAY_RETRIEVE, 0, &[WEIGHT]).bytes());
        let outcome = judge(&Case { clock, ..Case::new(&tables.bytes(), &record) });
        assert_eq!((outcome.response.answer, outcome.response.permission), (answer, permission));
    }
}

#[test]
fn wildcards_reach() {
    let reached = |wildcards| -> Vec<u8> {
        let row = access(1, ANON, MAY_RETRIEVE, wildcards, &[]);
        directory::DIRECTORY.iter().filter(|resource| resource_fits(&row, resource)).map(|r| r.number).collect()
    };
    assert_eq!(reached(0), []);
    assert_eq!(reached(1), [8, 9, 10, 11, 12, 13, 14, 16]);
    assert_eq!(reached(4), [8, 9, 10, 11, 12, 16]);
    assert_eq!(reached(2), [8, 12, 14]);
    assert_eq!(reached(6), [8, 9, 10, 11, 12, 14, 16]);
}

#[test]
fn the_type_decides_nothing() {
    let mut random = Random::new(19);
    // Each row with one of these types.
    let retyped = |stored: &TableBytes, random: &mut Random, kinds: &[u8]| {
        let mut tables = Tables::read(stored).expect("sound tables stay sound");
        tables.credentials.iter_mut().for_each(|row| row.kind = random.pick(kinds));
        tables.bytes()
    };
    let without = |stored: &TableBytes| retyped(stored, &mut Random::new(0), &[0]);
    let mut shown = 0;
    for _ in 0..2000 {
        let one = generate::any_sound(&mut random).bytes();
        let other = retyped(&one, &mut random, &[0, 1, 2, 4, 8, 16, 32]);
        let clock = generate::clock(&mut random, &one);
        let record = generate::record(&mut random, generate::Style::Mixed, &one, clock);
        let [one, other] = [one, other].map(|tables| judge(&Case { clock, ..Case::new(&tables, &record) }));
        // The reply of cred shows what is stored, and so do the tables.
        let listed = one.response.reply != other.response.reply;
        assert!(
            !listed || Header::read(&record).resource == CRED && one.response.reply.len() == other.response.reply.len()
        );
        let told = |outcome: &Outcome| Response { reply: Vec::new(), ..outcome.response.clone() };
        assert_eq!(told(&one), told(&other));
        assert_eq!(without(&one.tables), without(&other.tables));
        shown += usize::from(listed);
    }
    assert!(shown > 10, "{shown} replies show types");
}
