//! Yards on one plate, at random: senders who are isolated stay so until a record
//! of somebody else endangers them, and each of two yards has its run as if the
//! other sent nothing, except for the roles that the other's partners asserted.

#![forbid(unsafe_code)]

use model::call::Case;
use model::generate::{any_sound, clock, defaults, record, Style};
use model::isolation::{ask, endangers, list_of, lists, sender_of, Sender};
use model::others::compared;
use model::random::Random;
use model::rules::{judge, Outcome};
use model::tables::{TableBytes, Tables, SIZE};

const SEED: u64 = 34;
const RUNS: usize = 1500;
const RECORDS: usize = 40;

fn isolated(tables: &TableBytes, senders: &[u8]) -> bool {
    ask(tables, senders).reason == 0
}

/// Owned tables, and of their partners, and the unauthenticated, those who are
/// isolated.
fn plate(random: &mut Random) -> (Tables, Vec<Sender>) {
    loop {
        let tables = any_sound(random);
        let partners = tables.credentials.iter().map(|row| Some(row.number));
        let harmless = partners.chain([None]).filter(|&sender| isolated(&tables.bytes(), &list_of(&[sender])));
        let harmless: Vec<Sender> = harmless.collect();
        if tables.owned() && !harmless.is_empty() {
            return (tables, harmless);
        }
    }
}

fn next_record(random: &mut Random, tables: &TableBytes, clock: u32) -> Vec<u8> {
    let style = random.weighted(&[(60, Style::Purposeful), (40, Style::Mixed)]);
    record(random, style, tables, clock)
}

#[test]
fn isolation_ends_by_what_endangers_alone() {
    let mut random = Random::new(SEED);
    let mut ended = 0;
    for _ in 0..RUNS {
        let (tables, harmless) = plate(&mut random);
        let defaults = defaults(&mut random);
        let (mut stored, senders) = (tables.bytes(), list_of(&harmless));
        for _ in 0..RECORDS {
            let clock = clock(&mut random, &stored);
            let record = next_record(&mut random, &stored, clock);
            let case = Case { clock, defaults: defaults.clone(), ..Case::new(&stored, &record) };
            stored = judge(&case).tables;
            if !isolated(&stored, &senders) {
                assert!(endangers(&record, &senders) && !lists(&senders, sender_of(&record)), "{record:02X?}");
                ended += 1;
                break;
            }
        }
    }
    assert!(ended > RUNS / 20, "isolation ended in {ended} runs");
}

/// A record, its clock, and what came of it except for the tables.
type Told = (Vec<u8>, Outcome);

/// Judges the records in their order; what came of each, and the tables at the end.
fn run(start: &TableBytes, cases: &[Case]) -> (Vec<Told>, TableBytes) {
    let mut stored = *start;
    let mut told = Vec::new();
    for case in cases {
        let outcome = judge(&Case { tables: stored, ..case.clone() });
        stored = outcome.tables;
        told.push((case.record.clone(), Outcome { tables: [0; SIZE], ..outcome }));
    }
    (told, stored)
}

fn told_to(told: &[Told], senders: &[u8]) -> Vec<Told> {
    told.iter().filter(|(record, _)| lists(senders, sender_of(record))).cloned().collect()
}

#[test]
fn each_yard_has_its_own_run() {
    let mut random = Random::new(SEED + 1);
    let mut sent = 0;
    for _ in 0..RUNS {
        let (tables, harmless) = plate(&mut random);
        let (one, other): (Vec<Sender>, Vec<Sender>) = harmless.iter().partition(|_| random.chance(50));
        let (one, other) = (list_of(&one), list_of(&other));
        let both = [one.clone(), other.clone()].concat();
        let defaults = defaults(&mut random);
        let start = tables.bytes();
        let mut stored = start;
        let mut cases = Vec::new();
        while cases.len() < RECORDS {
            let clock = clock(&mut random, &stored);
            let record = next_record(&mut random, &stored, clock);
            // Nobody outside both yards endangers them.
            if endangers(&record, &both) && !lists(&both, sender_of(&record)) {
                continue;
            }
            let case = Case { clock, defaults: defaults.clone(), ..Case::new(&stored, &record) };
            stored = judge(&case).tables;
            cases.push(case);
        }
        let (told, end) = run(&start, &cases);
        for (ours, theirs) in [(&one, &other), (&other, &one)] {
            let fed: Vec<Case> = cases.iter().filter(|case| !lists(theirs, sender_of(&case.record))).cloned().collect();
            let (alone, book) = run(&start, &fed);
            assert_eq!(told_to(&told, ours), told_to(&alone, ours));
            assert_eq!(compared(&end, theirs), compared(&book, theirs));
            sent += cases.len() - fed.len();
        }
    }
    assert!(sent > RUNS, "{sent} records of the other yard");
}
