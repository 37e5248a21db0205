//! Tests that the worked examples get the answers worked out by hand.

use super::*;
use crate::answers::PERMITTED;
use crate::rules::judge;

fn check(examples: Vec<Example>) {
    for example in examples {
        let outcome = judge(&example.case());
        let shown = format!("{}: {}", example.name, hex::write(&example.record));
        assert_eq!(outcome.response.answer, example.answer, "{shown}");
        assert_eq!(outcome.response.permission, example.permission, "{shown}");
        assert_eq!(outcome.response.links, example.links, "{shown}");
        assert_eq!(outcome.response.link_count(), example.links.count_ones() as usize, "{shown}");
        if outcome.response.answer != PERMITTED {
            assert_eq!(outcome.response.payload, 0..0, "{shown}");
            assert_eq!(outcome.tables, example.tables, "{shown}");
        }
    }
}

#[test]
fn every_refusal() {
    let examples = refusals();
    assert_eq!(examples.len(), 17);
    check(examples);
}

#[test]
fn readings_to_guard_against() {
    check(wrong_readings());
}

#[test]
fn open_places_as_decided() {
    check(decided());
}
