//! Tests that the cases for the office text reach what they are for.

use super::*;
use std::collections::BTreeSet;

use crate::answers::{LIST_NOT_SOUND, PERMITTED};
use crate::generate::walk_sessions;
use crate::rules::judge;
use crate::spoil;
use crate::tables::{Role, ACCESS_COUNT, CREDENTIAL_COUNT, STATE};
#[test]
fn every_kind_of_buffer_is_picked() {
    let mut picks = Picks::new(1);
    let mut counts = Counts::default();
    let mut full = 0;
    walk_sessions(1, 50_000, &mut |_, case| {
        let (tables, queue) = judge(case).after();
        if let Some(case) = picks.pick(&tables, &queue) {
            assert_eq!((&case.tables, &case.queue), (&tables, &queue));
            let listed = Listed::expected(&case);
            counts.add(&case, &listed);
            full += usize::from(listed.answer == PERMITTED && tables[ACCESS_COUNT] == 32);
        }
        (tables, queue)
    });
    let Counts { exact, to_spare, one_too_short, no_buffer, otherwise_too_short, not_sound } = counts;
    for count in [exact, to_spare, one_too_short, no_buffer, otherwise_too_short, not_sound] {
        assert!(count > 20, "{counts}");
    }
    assert!(full > 50, "{full}");
}

#[test]
fn the_same_tables_are_not_picked_again() {
    let mut random = Random::new(41);
    let mut picks = Picks::new(1);
    for _ in 0..100 {
        let tables = any_sound(&mut random).bytes();
        let queue = QueueBytes::empty();
        let _ = picks.pick(&tables, &queue);
        assert!((0..50).all(|_| picks.pick(&tables, &queue).is_none()));
    }
}

#[test]
fn own_tables_have_everything() {
    let mut numbers = BTreeSet::new();
    let mut roles = BTreeSet::new();
    let mut authorities = BTreeSet::new();
    let mut resources = BTreeSet::new();
    let mut permissions = BTreeSet::new();
    let mut periods = BTreeSet::new();
    for tables in tables() {
        assert_eq!(Tables::read(&tables.bytes()), Ok(tables.clone()));
        for row in tables.accesses {
            numbers.insert(row.number);
            permissions.insert(row.permission);
            periods.insert(row.period);
            let Wildcards { plus, minus, star } = row.wildcards;
            resources.insert((row.set, plus, minus, star));
            if let Subject::Role(Role { authority, number }) = row.subject {
                roles.insert(number);
                authorities.insert(authority);
            }
        }
    }
    assert_eq!((numbers.len(), roles.len(), authorities.len()), (65_535, 65_535, 65_536));
    assert_eq!(resources.len(), 8 * 8192);
    assert_eq!(permissions.len(), 32);
    // Every second, a bit away from it, and another.
    assert_eq!(periods.len(), 1 + 64 + 1);
    let mut counts = Counts::default();
    for case in cases() {
        counts.add(&case, &Listed::expected(&case));
    }
    let Counts { exact, to_spare, one_too_short, no_buffer, otherwise_too_short, not_sound } = counts;
    assert!(exact > 2000 && one_too_short > 2000, "{counts}");
    assert!(to_spare >= 4 && otherwise_too_short >= 4, "{counts}");
    // With each of the eight lengths.
    assert_eq!((no_buffer, not_sound), (2, 8 * TABLE_FAULTS.len() as u64), "{counts}");
    let longest = with_rows(&longest()).bytes();
    assert!(cases().any(|case| case.tables == longest && length(&longest) == Some(case.capacity)));
}

/// What shrinking makes of the first random tables that a program gets
/// wrong.
fn shrunk(wrong: impl Fn(&Case) -> Listed) -> Case {
    let differs = |case: &Case| wrong(case) != Listed::expected(case);
    let mut random = Random::new(42);
    let mut picks = Picks::new(42);
    let found = loop {
        let mut tables = any_sound(&mut random);
        tables.row_owners = [tables.device_owner; 4];
        let mut stored = tables.bytes();
        if random.chance(50) {
            spoil::spoil_tables(&mut stored, &mut random);
        }
        if tables.accesses.len() > 8 && tables.credentials.len() > 8 {
            if let Some(case) = picks.pick(&stored, &QueueBytes::empty()).filter(differs) {
                break case;
            }
        }
    };
    let small = shrink(found, differs);
    assert!(differs(&small));
    assert!(small.record.is_empty() && small.defaults == Defaults::none());
    assert!(small.tables[CREDENTIAL_COUNT] <= 1);
    // The line is all that a replay needs.
    assert_eq!(Case::from_line(&small.line()), Ok(small.clone()));
    small
}

#[test]
fn an_exact_fit_shrinks_to_the_empty_list() {
    // A program that wants a byte to spare.
    let small = shrunk(|case| match Listed::expected(case) {
        listed if listed.answer == PERMITTED && listed.length == case.capacity => {
            Listed::expected(&Case { capacity: case.capacity - 1, ..case.clone() })
        }
        listed => listed,
    });
    assert_eq!(small.capacity, r#"{"aclist2":[]}"#.len());
    assert_eq!((small.tables[STATE], small.tables[ACCESS_COUNT]), (1, 0));
}

#[test]
fn a_wrong_row_shrinks_to_that_row() {
    // A program that ends a list of three rows or more with a space.
    let small = shrunk(|case| {
        let mut listed = Listed::expected(case);
        if listed.answer == PERMITTED && case.tables[ACCESS_COUNT] > 2 && listed.length < case.capacity {
            listed.buffer[listed.length] = b' ';
        }
        listed
    });
    assert_eq!(small.tables[ACCESS_COUNT], 3);
    assert_eq!(length(&small.tables).map(|fits| fits + 1), Some(small.capacity));
    // Without resources; the longest subject is a UUID.
    assert!(small.capacity < 3 * 110);
}

#[test]
fn the_wrong_order_of_checks_shrinks_to_no_buffer() {
    let small = shrunk(|case| match Listed::expected(case) {
        listed if listed.answer == LIST_NOT_SOUND && case.capacity < 14 => Listed { answer: 18, ..listed },
        listed => listed,
    });
    assert_eq!(small.capacity, 0);
    assert!(small.tables.iter().filter(|&&byte| byte != 0).count() <= 2);
}
