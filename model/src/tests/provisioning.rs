//! Tests of the test of lists to load.

use super::*;
use crate::answers::{MALFORMED, PERMITTED, TEST_EXCESSIVE, TEST_NOT_STORABLE};
use crate::case::Case;
use crate::defaults::join;
use crate::directory::{ACL2, CALIB, DIRECTORY, DISPLAY, LAMP, TARE, TICKET, WEIGHT, YARD, ZERO};
use crate::examples::{access, credential, owned, role, uuid, ANON, AUTH};
use crate::generate;
use crate::hex;
use crate::lists;
use crate::random::Random;
use crate::record::{compose, Verb, MAY_ALL, MAY_RETRIEVE, MAY_UPDATE};
use crate::rules::judge;
use crate::spoil::{ACCESS_FAULTS, LOAD_FAULTS};
use crate::tables::{Period, State, Tables, MINUS, PLUS, STAR};

fn said(list: &[u8]) -> (u8, usize) {
    let Tested { answer, row } = test(list);
    (answer, row)
}

/// Rows numbered from 1, with which nothing is wrong.
fn good(rows: u16) -> Vec<u8> {
    join(&(1..=rows).map(|number| access(number, AUTH, MAY_RETRIEVE, STAR, &[WEIGHT, ACL2])).collect::<Vec<Access>>())
}

#[test]
fn lists_by_hand() {
    let row = |number: &str, kind: &str, set: &str, last: &str| {
        hex::literal(&format!("{number} {kind} {set} {last:0>32} 00000000 ffffffff"))
    };
    // Anybody may read the weight, a UUID may write the access list, role 7
    // may read it.
    let weight = row("0001", "8400", "0080000000000000", "0000");
    let owner = row("0002", "3E00", "1000000000000000", "11".repeat(16).as_str());
    let reader = row("0003", "4400", "1000000000000000", "00000007");
    assert_eq!(said(&[]), (0, 0));
    assert_eq!(said(&[&weight[..], &owner, &reader].concat()), (0, 0));
    // The same number again.
    assert_eq!(said(&[&weight[..], &owner, &weight].concat()), (20, 3));
    assert_eq!(said(&[&weight[..], &weight, &weight].concat()), (20, 2));
    // Role 7 may write it, by one bit each.
    for (kind, answer) in [("4200", 21), ("4400", 0), ("4800", 21), ("5000", 21), ("6000", 0)] {
        let writer = row("0003", kind, "1000000000000000", "00000007");
        assert_eq!(said(&[&weight[..], &owner, &writer].concat()), (answer, if answer == PERMITTED { 0 } else { 3 }));
    }
    // Half a row, and a row too many.
    assert_eq!(said(&weight[..18]), (19, 0));
    assert_eq!(said(&[&weight[..], &owner[..35]].concat()), (19, 0));
    assert_eq!(said(&good(33)), (19, 0));
}

#[test]
fn lengths() {
    let rows = good(40);
    for length in 0..=rows.len() {
        let expected = if length % 36 == 0 && length <= 1152 { 0 } else { 19 };
        assert_eq!(said(&rows[..length]), (expected, 0), "{length}");
    }
    // Before any row is looked at.
    assert_eq!(said(&[0; 37]), (19, 0));
    assert_eq!(said(&[0; 33 * 36]), (19, 0));
    assert_eq!(said(&[0; 32 * 36]), (20, 1));
    assert_eq!(said(&[0xFF; 71]), (19, 0));
}

#[test]
fn a_forbidden_row_at_each_place() {
    let mut random = Random::new(51);
    for (name, fault) in ACCESS_FAULTS {
        for place in 0..32 {
            let mut list = good(32);
            fault(&mut list[place * 36..][..36], &mut random);
            assert_eq!(said(&list), (20, place + 1), "{name}");
            // It stays the first when others follow.
            fault(&mut list[31 * 36..], &mut random);
            assert_eq!(said(&list), (20, place + 1), "{name}");
        }
    }
}

#[test]
fn a_number_again_at_each_pair_of_places() {
    for later in 1..32 {
        for earlier in 0..later {
            let mut list = good(32);
            list.copy_within(earlier * 36..earlier * 36 + 2, later * 36);
            assert_eq!(said(&list), (20, later + 1));
        }
    }
    // A bit makes another number.
    for bit in 0..16 {
        let near = access(0x0201 ^ 1 << bit, AUTH, MAY_RETRIEVE, 0, &[]);
        assert_eq!(said(&join(&[access(0x0201, AUTH, MAY_RETRIEVE, 0, &[]), near])), (0, 0));
    }
}

#[test]
fn what_opens_a_security_resource() {
    let said = |row: Access| said(&join(&[row]));
    for resource in &DIRECTORY {
        for permission in 0..32 {
            let writes = permission & 13 != 0;
            let expected = if resource.number < WEIGHT && writes { (TEST_EXCESSIVE, 1) } else { (PERMITTED, 0) };
            for subject in [ANON, AUTH, role(0, 7), role(3, 7)] {
                for wildcards in 0..8 {
                    let row = access(9, subject, permission, wildcards, &[resource.number]);
                    assert_eq!(said(row.clone()), expected, "{row:?}");
                    // In any period, also after its end.
                    let period = Period { first: 0, last: 0 };
                    assert_eq!(said(Access { period, ..row }), expected);
                }
            }
            let row = access(9, Subject::Uuid(uuid(0x22)), permission, PLUS | MINUS | STAR, &[resource.number]);
            assert_eq!(said(row), (0, 0));
        }
    }
    // No wildcard reaches one.
    for subject in [ANON, AUTH, role(0, 7)] {
        assert_eq!(
            said(access(
                9,
                subject,
                MAY_ALL,
                PLUS | MINUS | STAR,
                &[WEIGHT, TARE, ZERO, TICKET, LAMP, CALIB, DISPLAY, YARD]
            )),
            (0, 0)
        );
        assert_eq!(said(access(9, subject, MAY_ALL, PLUS | MINUS | STAR, &[])), (0, 0));
    }
}

#[test]
fn the_first_bad_row_by_whichever_fault() {
    let clean = access(1, AUTH, MAY_RETRIEVE, 0, &[WEIGHT]);
    let opens = access(2, ANON, MAY_UPDATE, 0, &[ACL2]);
    let again = access(1, AUTH, MAY_RETRIEVE | MAY_UPDATE, 0, &[TARE]);
    let both = access(1, ANON, MAY_UPDATE, 0, &[ACL2]);
    assert_eq!(said(&join(&[clean.clone(), opens.clone(), again.clone()])), (21, 2));
    assert_eq!(said(&join(&[clean.clone(), again.clone(), opens.clone()])), (20, 2));
    // Of one row, 20 comes first.
    assert_eq!(said(&join(&[clean.clone(), both.clone()])), (20, 2));
    assert_eq!(said(&join(&[both, clean])), (21, 1));
    let mut not_storable = opens.bytes();
    not_storable[3] |= 1;
    assert_eq!(said(&not_storable), (20, 1));
}

/// The tables after the rows are stored by the device owner, one straight
/// after the other, or the answer of the first that is refused.
fn loaded(tables: &Tables, sender: u16, list: &[u8], random: &mut Random) -> Result<Tables, u8> {
    let mut stored = tables.bytes();
    for row in list.chunks(36) {
        let clock = generate::clock(random, &stored);
        let defaults = generate::defaults(random);
        let record = compose(Verb::Update, ACL2, sender, row);
        let outcome = judge(&Case { clock, capacity: 0, defaults, ..Case::new(&stored, &record) });
        if outcome.response.answer != PERMITTED {
            return Err(outcome.response.answer);
        }
        stored = outcome.tables;
    }
    Ok(Tables::read(&stored).expect("sound"))
}

/// Sound tables in RFPRO with no access rows, and the number of a credential
/// row that names the device owner.
fn provisioned(random: &mut Random) -> (Tables, u16) {
    let mut tables = generate::any_sound(random);
    tables.state = State::Rfpro;
    tables.accesses.clear();
    if tables.credentials.is_empty() {
        tables.credentials.push(credential(5, uuid(0x11)));
    }
    let owner = &tables.credentials[random.below(tables.credentials.len())];
    tables.device_owner = Some(owner.subject);
    let number = owner.number;
    (tables, number)
}

#[test]
fn an_accepted_list_is_permitted_throughout() {
    let mut random = Random::new(52);
    let (mut accepted, mut full) = (0, 0);
    while accepted < 600 {
        let list = lists::random_list(&mut random);
        if said(&list) != (0, 0) {
            continue;
        }
        accepted += 1;
        full += usize::from(list.len() == 32 * 36);
        let (tables, owner) = provisioned(&mut random);
        let after = loaded(&tables, owner, &list, &mut random).expect("permitted");
        assert_eq!(join(&after.accesses), list);
        assert_eq!(Tables { accesses: Vec::new(), ..after }, tables);
    }
    assert!(full > 20, "{full}");
}

#[test]
fn a_row_named_with_20_is_refused_or_replaces_one() {
    let mut random = Random::new(53);
    let (mut refused, mut replaced) = (0, 0);
    while refused < 200 || replaced < 200 {
        let list = lists::random_list(&mut random);
        let Tested { answer, row } = test(&list);
        if answer != TEST_NOT_STORABLE {
            continue;
        }
        let (tables, owner) = (owned(State::Rfpro), 5);
        let before = &list[..(row - 1) * 36];
        assert_eq!(loaded(&tables, owner, before, &mut random).map(|tables| tables.accesses.len()), Ok(row - 1));
        match loaded(&tables, owner, &list[..row * 36], &mut random) {
            Err(answer) => {
                assert_eq!(answer, MALFORMED);
                refused += 1;
            }
            Ok(tables) => {
                assert_eq!(tables.accesses.len(), row - 1);
                replaced += 1;
            }
        }
    }
}

#[test]
fn the_rows_before_the_first_bad_one_are_clean() {
    let mut random = Random::new(54);
    for _ in 0..3000 {
        let list = lists::random_list(&mut random);
        match said(&list) {
            (0, 0) => {}
            (19, 0) => assert!(!list.len().is_multiple_of(36) || list.len() > 1152),
            (answer, row) => {
                assert!(matches!(answer, TEST_NOT_STORABLE | TEST_EXCESSIVE) && (1..=32).contains(&row));
                assert_eq!(said(&list[..(row - 1) * 36]), (0, 0));
                // What follows does not matter.
                assert_eq!(said(&list[..row * 36]), (answer, row));
            }
        }
    }
}

#[test]
fn a_list_without_a_fault_is_accepted() {
    let mut random = Random::new(55);
    for rows in (0..=32).cycle().take(660) {
        let mut list = lists::good_list(&mut random, rows);
        assert_eq!(said(&list), (0, 0));
        for (name, answer, fault) in LOAD_FAULTS {
            let before = list.clone();
            if fault(&mut list, &mut random) {
                assert_eq!(test(&list).answer, answer, "{name}");
            }
            list = before;
        }
    }
}
