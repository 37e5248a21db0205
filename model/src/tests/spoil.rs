//! Tests that each way to break a case breaks it.

use super::*;
use std::collections::BTreeSet;

use crate::files;
use crate::generate;
use crate::older::{self, Refusal};
use crate::queue::{self, Queue, QueueBytes};
use crate::tables::{Error, Tables};
#[test]
fn every_row_fault_is_forbidden() {
    let mut random = Random::new(1);
    for _ in 0..200 {
        for (name, fault) in CREDENTIAL_FAULTS {
            let mut row = generate::credential(&mut random, &[]).bytes();
            fault(&mut row, &mut random);
            assert_eq!(Credential::read(&row), None, "{name}");
        }
        for (name, fault) in &CREDENTIAL_FAULTS[..SHORT_CREDENTIAL_FAULTS] {
            let mut body = generate::credential(&mut random, &[]).short_body();
            fault(&mut body, &mut random);
            assert_eq!(Credential::from_body(&body), None, "{name}, no authority");
        }
        for (name, fault) in ASSERTED_FAULTS {
            let mut row = generate::credential(&mut random, &[]).stored();
            fault(&mut row[Credential::BODY_SIZE..], &mut random);
            assert_eq!(Credential::from_stored(&row), None, "{name}");
        }
        for (name, fault) in ACCESS_FAULTS {
            let mut row = generate::access(&mut random, &[]).bytes();
            fault(&mut row, &mut random);
            assert_eq!(Access::read(&row), None, "{name}");
        }
        for (name, fault) in &ACCESS_FAULTS[..SHORT_ACCESS_FAULTS] {
            let mut body = generate::access(&mut random, &[]).short_body();
            fault(&mut body, &mut random);
            assert_eq!(Access::from_body(&body), None, "{name}, no period");
        }
    }
}

#[test]
fn every_file_fault_is_seen() {
    let mut random = Random::new(3);
    for rows in (0..=16).cycle().take(500) {
        let good = files::good_file(&mut random, rows);
        assert!(older::convert(&good).is_ok());
        for (name, fault) in FILE_FAULTS {
            let mut file = good.clone();
            if fault(&mut file, &mut random) {
                assert_eq!(older::convert(&file), Err(Refusal::BadFile), "{name}");
            }
        }
    }
}

#[test]
fn every_table_fault_is_seen() {
    let mut random = Random::new(2);
    let mut seen = BTreeSet::new();
    for (name, fault) in TABLE_FAULTS {
        let mut made = 0;
        while made < 100 {
            let mut stored = generate::any_sound(&mut random).bytes();
            if fault(&mut stored, &mut random) {
                seen.insert(Tables::read(&stored).expect_err(name));
                made += 1;
            }
        }
    }
    let all = [
        Error::State,
        Error::Owned,
        Error::OwnedDisagrees,
        Error::StateNeedsOwner,
        Error::CountOverCapacity,
        Error::Row,
        Error::NumberTwice,
        Error::UnusedRow,
    ];
    assert_eq!(seen, BTreeSet::from(all));
}

#[test]
fn every_queue_fault_is_seen() {
    let mut random = Random::new(4);
    let mut seen = BTreeSet::new();
    for (name, fault) in QUEUE_FAULTS {
        let mut made = 0;
        while made < 100 {
            let tables = generate::any_sound(&mut random);
            let queue = generate::queue(&mut random, &tables);
            assert_eq!(Queue::read(&queue.bytes(), &tables), Ok(queue.clone()));
            let mut queue_bytes = queue.bytes().whole();
            if fault(&mut queue_bytes, &mut random) {
                seen.insert(Queue::read(&QueueBytes::from_bytes(&queue_bytes), &tables).expect_err(name));
                made += 1;
            }
        }
    }
    let all =
        [queue::Error::Count, queue::Error::Round, queue::Error::Record, queue::Error::SeatTwice, queue::Error::Unused];
    assert_eq!(seen, BTreeSet::from(all));
}
