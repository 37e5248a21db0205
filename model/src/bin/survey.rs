//! Shows which answers the generated cases get, without the library.

#![forbid(unsafe_code)]

use model::answers::OF_RECORDS;
use model::generate::{walk, Part};
use model::histogram::Histogram;
use model::options::Program;
use model::rules::judge;

const PROGRAM: Program = Program {
    name: "survey",
    help: "\
survey [--records N] [--seed S]

Judges the cases that compare would put to the library, by the model alone,
and prints how often each answer came.

  --records N  so many records (default 300000)
  --seed S     another choice of records (default 1)
  --help       this text
",
    valued: &["--records", "--seed"],
    flags: &[],
    free: 0,
};

fn main() {
    let options = PROGRAM.options();
    let records = PROGRAM.number(&options, "--records", 300_000);
    let seed = PROGRAM.number(&options, "--seed", 1);

    let mut parts: Vec<(String, Histogram)> = Vec::new();
    let mut whole = Histogram::new();
    walk(seed, records, |part, case| {
        let outcome = judge(case);
        let name = match part {
            Part::Systematic(name) => name.to_string(),
            Part::Random(style) => format!("random, {style:?}").to_lowercase(),
        };
        let place = parts.iter().position(|(held, _)| *held == name).unwrap_or_else(|| {
            parts.push((name, Histogram::new()));
            parts.len() - 1
        });
        parts[place].1.add(case, &outcome);
        whole.add(case, &outcome);
        outcome.after()
    });

    print!("{:<20}", "part");
    for answer in OF_RECORDS {
        print!(" {answer:>6}");
    }
    println!();
    for (name, histogram) in &parts {
        print!("{name:<20}");
        for answer in OF_RECORDS {
            print!(" {:>6}", histogram.answers[answer as usize]);
        }
        println!();
    }
    println!();
    print!("{whole}");
    println!("survey: {} records", whole.total());
}
