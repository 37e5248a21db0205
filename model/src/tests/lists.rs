//! Tests that the lists to load reach every answer.

use super::*;
use std::collections::BTreeSet;

use crate::answers::TEST_NOT_STORABLE;
use crate::provisioning::test;

#[test]
fn every_length_and_every_answer() {
    let mut counts = Counts::default();
    let mut lengths = BTreeSet::new();
    let mut named = BTreeSet::new();
    for list in cases(1) {
        let tested = test(&list);
        counts.add(tested);
        lengths.insert(list.len());
        named.insert((tested.answer, tested.row));
    }
    assert!((0..=LONG * ROW).all(|length| lengths.contains(&length)));
    let Counts { accepted, length, not_storable, opens_security } = counts;
    for count in [accepted, length, not_storable, opens_security] {
        assert!(count > 2000, "{counts}");
    }
    // Each row is named by each fault, and nothing else.
    let rows = (1..=MOST).flat_map(|row| [(20, row), (21, row)]);
    assert_eq!(named, rows.chain([(0, 0), (19, 0)]).collect());
}

#[test]
fn the_same_seed_gives_the_same() {
    assert!(cases(3).eq(cases(3)));
    assert!(cases(3).ne(cases(4)));
}

#[test]
fn a_difference_shrinks_to_little() {
    // A program that names rows from 0.
    let wrong = |list: &[u8]| match test(list) {
        Tested { answer: 21, row } => Tested { answer: 21, row: row - 1 },
        right => right,
    };
    let differs = |list: &[u8]| wrong(list) != test(list);
    let long = |list: &Vec<u8>| list.len() > 20 * ROW && test(list).row > 10 && differs(list);
    let found = Random::new(61).until(random_list, long);
    let small = shrink(found, differs);
    assert_eq!(small.len(), ROW);
    assert!(small.iter().filter(|&&byte| byte != 0).count() <= 8);
}

#[test]
fn a_pair_of_rows_shrinks_to_both() {
    // A program that looks for the number in only the row before.
    let wrong = |list: &[u8]| {
        let rows: Vec<&[u8]> = list.chunks(ROW).collect();
        match test(list) {
            Tested { answer: 20, row } if rows[row - 1][..2] != rows[row.saturating_sub(2)][..2] => test(&[]),
            right => right,
        }
    };
    let differs = |list: &[u8]| {
        let twice = test(list).answer == TEST_NOT_STORABLE
            && Access::read(&list[(test(list).row - 1) * ROW..][..ROW]).is_some();
        twice && wrong(list) != test(list)
    };
    let found = Random::new(62).until(random_list, |list| list.len() > 20 * ROW && differs(list));
    assert_eq!(shrink(found, differs).len(), 3 * ROW);
}
