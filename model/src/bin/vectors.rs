//! Writes a file of vectors.

#![forbid(unsafe_code)]

use std::fs;

use model::options::Program;
use model::queries::Queries;
use model::vectors::{Vectors, LEAST};

const PROGRAM: Program = Program {
    name: "vectors",
    help: "\
vectors FILE [QUERIES] [--seed S] [--bytes N]

Writes tables, records and what is to come of them to FILE, for another
program to read; src/vectors.rs describes the form. Writes lists of senders,
stores and images, and what is answered of them, to QUERIES; src/queries.rs
describes that form.

  --seed S    another choice of records and queries (default 1)
  --bytes N   at most so many bytes of FILE (default 399999)
  --help      this text
",
    valued: &["--seed", "--bytes"],
    flags: &[],
    free: 2,
};

fn main() {
    let options = PROGRAM.options();
    let Some(file) = options.free(0) else {
        PROGRAM.stop("name the file to write; see vectors --help");
    };
    let seed = PROGRAM.number(&options, "--seed", 1);
    let limit = PROGRAM.number(&options, "--bytes", 399_999) as usize;
    if limit < LEAST {
        PROGRAM.stop(format!("--bytes must be at least {LEAST}, so that every answer has room"));
    }
    let vectors = Vectors::build(seed, limit);
    write(file, &vectors.bytes);
    print!("{}", vectors.histogram);
    println!(
        "vectors: {} records, {} hand-ins, {} takes, {} tables, {} checks, {} pairs of default lists, {} lists to load, {} older lists, {} bytes",
        vectors.records,
        vectors.hand_ins,
        vectors.takes,
        vectors.tables,
        vectors.checks,
        vectors.lists,
        vectors.tested,
        vectors.converted,
        vectors.bytes.len()
    );
    if let Some(file) = options.free(1) {
        let queries = Queries::build(seed);
        write(file, &queries.bytes);
        println!("{}", queries.questions);
        println!(
            "queries: {} lists of senders, {} steps, {} current images, {} runs, {} bytes",
            queries.questions.total(),
            queries.steps,
            queries.currents,
            queries.runs,
            queries.bytes.len()
        );
    }
}

fn write(file: &str, bytes: &[u8]) {
    if let Err(fault) = fs::write(file, bytes) {
        PROGRAM.stop(format!("cannot write {file}: {fault}"));
    }
}
