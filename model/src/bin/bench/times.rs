//! The time of each case on either side. A time is the least of the repetitions, since other programs on the
//! machine only ever add time; each repetition goes through all cases, so that a slow while does not fall on one.

use std::hint::black_box;
use std::time::Instant;

use model::case::Case as Put;
use model::generate::{clock, record, session};
use model::library::{default_lists, Side, LIBRARY};
use model::random::Random;
use model::rules::{judge, REPLY_MAX};
use tillerclover::{Tables as Given, Waiting};

use crate::cases::{all, growth, Case};
use crate::{BY_HAND, SIDES};

const CALLS: u32 = 50;

pub fn times(repetitions: u64) {
    println!("\nnanoseconds, the least of {repetitions} repetitions\n");
    println!("{:10}  {:11}  {:>8}  {:>8}  ratio", "case", "tables", "library", "by hand");
    let cases: Vec<Case> = all().into_iter().chain(growth()).collect();
    let mut least = vec![[f64::INFINITY; 3]; cases.len()];
    for repetition in 0..repetitions {
        at_level(repetition % LEVELS, &mut || {
            for (case, least) in cases.iter().zip(&mut least) {
                let times = [
                    nanoseconds(|| case.call(&LIBRARY)),
                    nanoseconds(|| case.call(&BY_HAND)),
                    nanoseconds(|| case.put_back()),
                ];
                for (least, time) in least.iter_mut().zip(times) {
                    *least = least.min(time);
                }
            }
        });
    }
    for (case, [library, by_hand, put_back]) in cases.iter().zip(least) {
        // A terminal that is put back is none of the time.
        let extra = if case.is_changing() { put_back } else { 0.0 };
        print(case.name, case.tables, library - extra, by_hand - extra);
    }
    mixed(repetitions.div_ceil(10));
}

fn print(name: &str, tables: &str, library: f64, by_hand: f64) {
    println!("{name:10}  {tables:11}  {library:8.0}  {by_hand:8.0}  {:5.2}", library / by_hand);
}

fn nanoseconds(mut call: impl FnMut()) -> f64 {
    let start = Instant::now();
    for _ in 0..CALLS {
        call();
    }
    start.elapsed().as_nanos() as f64 / f64::from(CALLS)
}

const LEVELS: u64 = 16;

/// Calls that many frames further down: the system lets each run's stack begin elsewhere, and some places are slower.
#[inline(never)]
fn at_level(level: u64, call: &mut dyn FnMut()) {
    let frame = [0u8; 200];
    black_box(&frame);
    match level {
        0 => call(),
        _ => at_level(level - 1, call),
    }
    black_box(&frame);
}

const MIXED: usize = 1000;

/// Records of random sessions, so that no branch always goes the same way. Each is judged directly, with nothing
/// waiting.
fn records() -> Vec<(Put, Given)> {
    let mut random = Random::new(1);
    let mut records = Vec::new();
    while records.len() < MIXED {
        let session = session(&mut random);
        let mut stored = session.tables;
        for _ in 0..session.records {
            let clock = clock(&mut random, &stored);
            let put = Put { clock, ..Put::new(&stored, &record(&mut random, session.style, &stored, clock)) };
            let next = judge(&put).tables;
            records.push((put, Given::from_bytes(&stored)));
            stored = next;
        }
    }
    records
}

/// The mean over such records. The tables are copied before each, which both sides pay for.
fn mixed(repetitions: u64) {
    let records = records();
    let (mut tables, mut queue, mut reply) = (Given::default(), Waiting::FRESH, [0; REPLY_MAX]);
    let mut all = |side: &Side| {
        let start = Instant::now();
        for (put, given) in &records {
            tables = *given;
            let defaults = default_lists(&put.defaults);
            black_box((side.judge)(&mut tables, &mut queue, defaults, put.clock, &put.record, &mut reply));
        }
        start.elapsed().as_nanos() as f64 / records.len() as f64
    };
    let mut least = [f64::INFINITY; 2];
    for _ in 0..repetitions {
        for (least, (_, side)) in least.iter_mut().zip(&SIDES) {
            *least = least.min(all(side));
        }
    }
    print("mixed", &format!("{}-random", records.len()), least[0], least[1]);
}
