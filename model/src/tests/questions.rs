//! Tests of the questions themselves.

use super::*;
use crate::isolation::ask;

#[test]
fn every_answer_comes() {
    let mut counts = Counts::default();
    for (tables, senders) in cases(1) {
        counts.add(ask(&tables, &senders));
    }
    assert!(counts.reasons.iter().all(|&count| count > 100), "{counts}");
}

#[test]
fn the_same_seed_gives_the_same_questions() {
    assert!(cases(7).take(5000).eq(cases(7).take(5000)));
}

#[test]
fn a_list_is_made_small() {
    let list = list_of(&[Some(7), None, Some(5), Some(9)]);
    let small = shrink(list, |list| list.chunks(ENTRY).any(|entry| entry == [0, 5]));
    assert_eq!(small, [0, 5]);
}
