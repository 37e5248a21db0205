//! The others alone at random (demand 3): over hand-ins, takes and records judged at
//! once, what chosen senders send changes nothing for the others.

#![forbid(unsafe_code)]

use model::answers::NOT_SOUND;
use model::case::{Call, Case, Seen};
use model::generate::{any_bytes, clock, record, Style};
use model::others::{compared, random_run, Counts};
use model::random::Random;
use model::record::HEADER_SIZE;
use model::tables::Tables;

const SEED: u64 = 3;
const RUNS: usize = 1200;

#[test]
fn the_others_alone() {
    let mut random = Random::new(SEED);
    let mut counts = Counts::default();
    for run in 0..RUNS {
        random_run(&mut random, Case::expected, true, &mut counts).unwrap_or_else(|fault| panic!("run {run}: {fault}"));
    }
    // The claim is not empty: each of these occurred, and not rarely.
    let Counts { others, chosen, taken, unsound, waiting, asserted, .. } = counts;
    assert!(others > 10_000 && chosen > 1_500 && taken > 5_000, "{counts:?}");
    assert!(unsound > 100 && waiting > 800 && asserted > 20, "{counts:?}");
}

#[test]
fn tables_that_are_not_sound_need_no_premise() {
    let mut random = Random::new(SEED + 2);
    let mut unsound = 0;
    for _ in 0..2000 {
        let tables = any_bytes(&mut random);
        if Tables::read(&tables).is_ok() {
            continue;
        }
        unsound += 1;
        let clock = clock(&mut random, &tables);
        for call in Call::ALL {
            let sent = record(&mut random, Style::Mixed, &tables, clock);
            let seen = Case { call, clock, ..Case::new(&tables, &sent) }.expected();
            // Nobody changes anything, so nobody has to be harmless.
            assert_eq!((seen.answer, seen.permission, seen.tables), (NOT_SOUND, 0, tables));
        }
        assert_eq!(compared(&tables, &[0, 9]), tables);
    }
    assert!(unsound > 1000, "{unsound} tables");
}

#[test]
fn without_the_premise_the_others_notice() {
    let mut random = Random::new(SEED + 1);
    let mut counts = Counts::default();
    let noticed = (0..RUNS).filter(|_| random_run(&mut random, Case::expected, false, &mut counts).is_err()).count();
    assert!(noticed > RUNS / 20, "{noticed} runs");
}

/// A terminal that gives out other bytes than were handed in.
fn other_bytes(case: &Case) -> Seen {
    let mut seen = case.expected();
    if case.call == Call::Take && seen.taken > HEADER_SIZE {
        seen.record[seen.taken - 1] ^= 1;
    }
    seen
}

#[test]
fn other_bytes_are_noticed() {
    let mut random = Random::new(SEED + 3);
    let mut counts = Counts::default();
    let noticed = (0..RUNS / 4).filter(|_| random_run(&mut random, other_bytes, true, &mut counts).is_err()).count();
    assert!(noticed > RUNS / 200, "{noticed} runs");
}
