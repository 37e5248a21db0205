//! That the library and C by hand do the same: over the model's cases, so that the
//! figures are of the same work. Ends the program with 1 at a difference.

use std::collections::BTreeMap;
use std::process::exit;

use model::case::{shrink, Case};
use model::files::{self, File};
use model::generate::walk;
use model::library::LIBRARY;
use model::lists;
use model::texts::{self, Picks};

use crate::BY_HAND;

const SEED: u64 = 1;

pub fn agree(records: u64) {
    let lists = lists::cases(SEED).map(|list| same_test(&list)).count();
    let files = files::cases(SEED).map(|file| same_conversion(&file)).count();
    let mut written = texts::cases().map(|case| same_text(&case)).count();
    let mut answers: BTreeMap<u8, u64> = BTreeMap::new();
    let mut picks = Picks::new(SEED);
    walk(SEED, records, |_, case| {
        let seen = LIBRARY.judge(case);
        if !seen.same(&BY_HAND.judge(case)) {
            differs(case);
        }
        *answers.entry(seen.answer).or_default() += 1;
        if let Some(case) = picks.pick(&seen.tables, &seen.queue) {
            same_text(&case);
            written += 1;
        }
        seen.after()
    });
    let answers: Vec<String> = answers.iter().map(|(answer, count)| format!("{count} answered {answer}")).collect();
    println!("library and by hand: {records} records, hand-ins and takes: {}", answers.join(", "));
    println!("{written} texts, {lists} lists to load, {files} older lists");
    println!("agree: 0 differences");
}

/// Shows a record as small as it goes.
fn differs(case: &Case) -> ! {
    let small = shrink(case.clone(), |case| !LIBRARY.judge(case).same(&BY_HAND.judge(case)));
    eprintln!("bench: C by hand differs from the library, on this case made as small as it goes:\n{}", small.line());
    eprintln!("  library: {}", LIBRARY.judge(&small).describe(&small));
    eprintln!("  by hand: {}", BY_HAND.judge(&small).describe(&small));
    exit(1);
}

fn same_text(case: &Case) {
    let differs = |case: &Case| LIBRARY.list(case) != BY_HAND.list(case);
    if differs(case) {
        let small = texts::shrink(case.clone(), differs);
        eprintln!("bench: C by hand writes another office text:\n{}", small.line());
        eprintln!("  library: {}", LIBRARY.list(&small).describe());
        eprintln!("  by hand: {}", BY_HAND.list(&small).describe());
        exit(1);
    }
}

fn same_test(list: &[u8]) {
    let (library, by_hand) = (LIBRARY.tested(list), BY_HAND.tested(list));
    if library != by_hand {
        eprintln!("bench: C by hand tests a list otherwise: library {library:?}, by hand {by_hand:?}");
        exit(1);
    }
}

fn same_conversion(file: &File) {
    let differs = |file: &File| LIBRARY.converted(file) != BY_HAND.converted(file);
    if differs(file) {
        let small = files::shrink(file.clone(), differs);
        eprintln!("bench: C by hand converts an older list otherwise:\n{}", small.line());
        eprintln!("  library: {}", LIBRARY.converted(&small).describe());
        eprintln!("  by hand: {}", BY_HAND.converted(&small).describe());
        exit(1);
    }
}
