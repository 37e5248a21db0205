//! Tests that the lists of older terminals reach every answer.

use super::*;
use std::collections::BTreeSet;

use crate::answers::CONVERT_TOO_MANY;

#[test]
fn every_length_and_every_answer() {
    let mut counts = Counts::default();
    let mut lengths = BTreeSet::new();
    let mut made = BTreeSet::new();
    for file in cases(1) {
        let converted = Converted::expected(&file);
        counts.add(&file, &converted);
        lengths.insert(file.bytes.len());
        made.insert((converted.answer, converted.length));
    }
    assert!((0..=36 * ROW).all(|length| lengths.contains(&length)));
    let Counts { exact, to_spare, bad, too_many, too_short } = counts;
    for count in [exact, to_spare, bad, too_many, too_short] {
        assert!(count > 1000, "{counts}");
    }
    // Each count of rows, and nothing with a refusal.
    let results = (0..=Access::CAPACITY).map(|rows| (0, rows * Access::BODY_SIZE));
    assert_eq!(made, results.chain([(23, 0), (24, 0), (25, 0)]).collect());
}

#[test]
fn the_same_seed_gives_the_same() {
    assert!(cases(3).eq(cases(3)));
    assert!(cases(3).ne(cases(4)));
}

#[test]
fn a_difference_shrinks_to_little() {
    // A program that puts anon-clear first.
    let wrong = |file: &File| {
        let mut converted = Converted::expected(file);
        for row in converted.buffer[..converted.length].chunks_exact_mut(Access::BODY_SIZE) {
            if row[2] >> 6 == 2 {
                row[27] ^= 1;
            }
        }
        converted
    };
    let differs = |file: &File| wrong(file) != Converted::expected(file);
    let found = Random::new(73).until(random_file, |file| file.bytes.len() > 10 * ROW && differs(file));
    let small = shrink(found, differs);
    assert_eq!(small, File { bytes: vec![0; ROW], capacity: 2 * Access::BODY_SIZE });
}

#[test]
fn the_wrong_order_of_checks_shrinks_to_the_border() {
    // A program that looks at the buffer before it counts the rows.
    let wrong = |file: &File| match Converted::expected(file) {
        converted if converted.answer == CONVERT_TOO_MANY && file.capacity < CONVERTED_MAX => {
            Converted { answer: 25, ..converted }
        }
        converted => converted,
    };
    let differs = |file: &File| wrong(file) != Converted::expected(file);
    let found = Random::new(74).until(random_file, |file| file.bytes.len() > 30 * ROW && differs(file));
    let small = shrink(found, differs);
    assert_eq!((small.bytes.len(), small.capacity), (17 * ROW, 0));
}
