//! Compares the proved library with the model on the question whether senders are isolated, and holds runs of the library to
//! the book of demand 3.

#![forbid(unsafe_code)]

use std::process::exit;

use model::hex;
use model::isolation::{ask, Isolation};
use model::library;
use model::options::Program;
use model::others;
use model::questions::{cases, random_question, shrink, Counts};
use model::random::Random;
use model::tables::TableBytes;
use tillerclover::yards;
use tillerclover::Tables;

const PROGRAM: Program = Program {
    name: "yards",
    help: "\
yards [--questions N] [--runs N] [--seed S]

Asks the library and the model whether the senders of a list are isolated, of
tables and lists by enumeration and at random, good and spoilt, and compares
reason, entry and row. Then runs of hand-ins, takes and records judged at once
are made by the library, and the others than some chosen senders must be told
what the model says that is fed their records alone.

  --questions N   so many at random beside the rest (default 100000)
  --runs N        so many runs (default 2000)
  --seed S        another choice of questions (default 1)
  --help          this text

Ends with 0 when all are equal, with 1 when one is not.
",
    valued: &["--questions", "--runs", "--seed"],
    flags: &[],
    free: 0,
};

fn by_library(tables: &TableBytes, senders: &[u8]) -> Isolation {
    let said = yards::isolated(&Tables::from_bytes(tables), senders);
    let (entry, row) = match said {
        yards::Isolation::NamesOwner { entry } => (entry, 0),
        yards::Isolation::MayAlter { entry, row } => (entry, row),
        _ => (0, 0),
    };
    Isolation { reason: said.number(), entry, row }
}

fn differs(tables: &TableBytes, senders: &[u8]) -> bool {
    ask(tables, senders) != by_library(tables, senders)
}

/// The first difference, with a list as short as it goes.
fn show(tables: &TableBytes, senders: Vec<u8>) {
    let senders = shrink(senders, |list| differs(tables, list));
    println!("tables {}, senders {}", hex::write(tables), hex::write(&senders));
    println!("model {:?}, library {:?}", ask(tables, &senders), by_library(tables, &senders));
}

/// Runs in which the others get something else than the book; the first is shown.
fn noticed(runs: u64, seed: u64) -> (u64, others::Counts) {
    let mut random = Random::part(seed, 11);
    let (mut counts, mut differences) = (others::Counts::default(), 0);
    for _ in 0..runs {
        if let Err(fault) = others::random_run(&mut random, library::judge, true, &mut counts) {
            differences += 1;
            if differences == 1 {
                println!("{fault}");
            }
        }
    }
    (differences, counts)
}

fn main() {
    let options = PROGRAM.options();
    let (questions, seed) = (PROGRAM.number(&options, "--questions", 100_000), PROGRAM.number(&options, "--seed", 1));
    let mut random = Random::part(seed, 10);
    let (mut counts, mut differences) = (Counts::default(), 0_u64);
    for (tables, senders) in cases(seed).chain((0..questions).map(|_| random_question(&mut random))) {
        counts.add(ask(&tables, &senders));
        if differs(&tables, &senders) {
            differences += 1;
            if differences == 1 {
                show(&tables, senders);
            }
        }
    }
    println!("{counts}");
    let (noticed, runs) = noticed(PROGRAM.number(&options, "--runs", 2000), seed);
    println!(
        "{} runs, {} of them not sound: {} records of the others, {} of the chosen, {} of them taken",
        runs.runs, runs.unsound, runs.others, runs.chosen, runs.taken
    );
    let differences = differences + noticed;
    println!("yards: {} questions, {} runs, {differences} differences", counts.total(), runs.runs);
    exit(i32::from(differences > 0));
}
