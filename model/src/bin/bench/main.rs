//! Measures the proved library and the same work in C by hand, bench/yardstick.c:
//! first that both do the same, then the time of each.

#![deny(unsafe_code)]

mod agree;
mod by_hand;
mod cases;
mod times;

use model::library::{Side, LIBRARY};
use model::options::{Options, Program};

use by_hand::{mark, BY_HAND};
use cases::{all, growth, Case};

const PROGRAM: Program = Program {
    name: "bench",
    help: "\
bench [--repetitions N] [--records N]
bench --agree [--records N]
bench --count
bench --inputs
bench --only CASE --rows ROWS --side SIDE [--calls N]

Measures the time of each case through the library, and in C by hand,
bench/yardstick.c. Before that it compares the two over the model's records,
hand-ins and takes, over office texts, lists to load and older lists: answers,
replies, texts, and every byte of tables and queue. It ends with 1 where they
differ. Each time is the least of several repetitions, in which the two take
turns.

The second form compares, and measures nothing. The third calls each case once
on each side, with a mark behind it, and prints their names: bench/callgrind.sh
counts the instructions between the marks. The fourth prints what each case
calls with, for bench/cases.c. The fifth makes one call again and again, to see
where the instructions go.

  --repetitions N  so many (default 400)
  --records N      so many of the model's records are compared (default 300000)
  --only CASE      the name of a case, as the first form prints it
  --rows ROWS      its tables, as the first form prints them
  --side SIDE      library or hand
  --calls N        so many calls (default 1000)
  --help           this text
",
    valued: &["--repetitions", "--records", "--only", "--rows", "--side", "--calls"],
    flags: &["--agree", "--count", "--inputs"],
    free: 0,
};

/// Both, by the names that are printed.
const SIDES: [(&str, Side); 2] = [("library", LIBRARY), ("hand", BY_HAND)];

fn main() {
    let options = PROGRAM.options();
    if let Some(name) = options.text("--only") {
        return repeat(&options, name);
    }
    for name in ["--rows", "--side", "--calls"] {
        if options.text(name).is_some() {
            PROGRAM.stop(format!("{name} goes with --only"));
        }
    }
    if options.flag("--count") {
        return count();
    }
    if options.flag("--inputs") {
        return all().iter().for_each(|case| println!("{}", case.input()));
    }
    agree::agree(PROGRAM.number(&options, "--records", 300_000));
    if !options.flag("--agree") {
        times::times(PROGRAM.number(&options, "--repetitions", 400).max(1));
    }
}

/// The third form: each case once on each side, in the order of the lines that it prints.
fn count() {
    for case in all().into_iter().chain(growth()) {
        for (side, functions) in &SIDES {
            // The first call pays for what is looked up once.
            case.call(functions);
            mark();
            case.call(functions);
            mark();
            println!("{} {} {side}", case.name, case.tables);
        }
    }
}

/// The fifth form: calls of one case.
fn repeat(options: &Options, name: &str) {
    let needed = |option: &str| options.text(option).unwrap_or_else(|| PROGRAM.stop(format!("--only needs {option}")));
    let (tables, side) = (needed("--rows"), needed("--side"));
    let calls = PROGRAM.number(options, "--calls", 1000);
    let Some((_, functions)) = SIDES.iter().find(|(known, _)| *known == side) else {
        PROGRAM.stop(format!("--side is library or hand, not '{side}'"));
    };
    let cases: Vec<Case> = all().into_iter().chain(growth()).collect();
    let Some(case) = cases.iter().find(|case| case.name == name && case.tables == tables) else {
        PROGRAM.stop(format!("no case '{name}' with {tables} tables"));
    };
    for _ in 0..calls {
        case.call(functions);
    }
}
