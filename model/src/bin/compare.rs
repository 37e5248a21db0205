//! Compares the proved library with the model, record by record and list by list.

#![forbid(unsafe_code)]

use model::case::{field, first_change, shrink, Call, Case, Seen};
use model::files::{self, Converted, File};
use model::generate::{any_bytes, any_queue, defaults, walk};
use model::hex;
use model::histogram::Histogram;
use model::library;
use model::lists;
use model::options::Program;
use model::provisioning::{test, Tested};
use model::queue::{self, QueueBytes};
use model::random::Random;
use model::rules::judge;
use model::tables::{TableBytes, SIZE};
use model::texts::{self, Listed, Picks};

const PROGRAM: Program = Program {
    name: "compare",
    help: "\
compare [--records N] [--seed S] [--trace]
compare --replay CALL:TABLES:WAITING:CLOCK:RECORD:ROOM:CREDENTIALS:ACCESSES
compare --replay-list LIST
compare --replay-older FILE:ROOM

Judges the same records on the same tables at the same clock by the library and
by the model, hands the same records in and takes them, and compares answer,
permission, payload, length of the reply, every byte of the lent buffer (and some
behind it), the places to store after a delete, the set of the yard and its size,
the record handed out, and every byte of the tables and of the memory of what
waits; fresh tables and the clear button too. Default lists, good and bad, are
drawn with the cases. The office text of many of the tables, and of some for it alone, is
compared in the same way, and so are what both say of lists to load, and the
rows that they make of lists from older terminals.

  --records N   so many records (default 300000)
  --seed S      another choice of records (default 1)
  --trace       print each case before it is judged
  --replay CASE make this one call and show both outcomes, also those of the
                office text of its tables; CALL is judge, hand-in or take, CLOCK
                and ROOM, the length of the buffer for a reply or the text, are
                decimal numbers, all else hexadecimal digits, WAITING without
                the zeros at its end
  --replay-list LIST
                test this one list, rows in hexadecimal digits, and show what
                both say of it
  --replay-older FILE:ROOM
                convert this one list of an older terminal, hexadecimal digits
                and the length of the buffer in decimal, and show both results
  --help        this text

Ends with 0 when all are equal, with 1 when one is not.
",
    valued: &["--records", "--seed", "--replay", "--replay-list", "--replay-older"],
    flags: &["--trace"],
    free: 0,
};

const SHOWN: usize = 5;
const RECORDS_BETWEEN_CLEARS: u64 = 50;
const CLEARED: usize = 5000;

fn main() {
    let options = PROGRAM.options();
    for replay in ["--replay", "--replay-list", "--replay-older"] {
        for name in ["--records", "--seed"] {
            if options.text(replay).is_some() && options.text(name).is_some() {
                PROGRAM.stop(format!("{name} has no meaning with {replay}"));
            }
        }
    }
    if let Some(line) = options.text("--replay") {
        let case = Case::from_line(line).unwrap_or_else(|fault| PROGRAM.stop(fault));
        let differences = replay(&case);
        println!("compare: 1 records, {differences} differences");
        finish(differences);
    }
    if let Some(line) = options.text("--replay-list") {
        let list = hex::read(line).unwrap_or_else(|fault| PROGRAM.stop(fault));
        show_list(&list);
        let (expected, found) = said(&list);
        let differences = u64::from(expected != found);
        println!("compare: 1 lists, {differences} differences");
        finish(differences);
    }
    if let Some(line) = options.text("--replay-older") {
        let file = File::from_line(line).unwrap_or_else(|fault| PROGRAM.stop(fault));
        show_file(&file);
        let (expected, found) = made(&file);
        let differences = u64::from(expected != found);
        println!("compare: 1 older lists, {differences} differences");
        finish(differences);
    }
    let records = PROGRAM.number(&options, "--records", 300_000);
    let seed = PROGRAM.number(&options, "--seed", 1);
    let differences = compare(records, seed, options.flag("--trace"));
    println!("compare: {records} records, {differences} differences");
    finish(differences);
}

fn finish(differences: u64) -> ! {
    std::process::exit(if differences == 0 { 0 } else { 1 });
}

fn compare(records: u64, seed: u64, trace: bool) -> u64 {
    let mut differences = Differences::default();
    let (mut fresh_shown, mut clear_shown) = (false, false);
    let (mut begun, mut cleared) = (0u64, 0u64);
    // Fresh tables and the clear button, with the default lists of a case.
    let mut check_clear = |case: &Case| {
        let mut differences = 0;
        begun += 1;
        if fresh_differs(case).is_some() {
            differences += 1;
            if !fresh_shown {
                fresh_shown = true;
                show_small(case, "fresh tables differ at", fresh_differs);
            }
        }
        cleared += 1;
        if clear_differs(case).is_some() {
            differences += 1;
            if !clear_shown {
                clear_shown = true;
                show_small(case, "the clear button leaves", clear_differs);
            }
        }
        differences
    };
    let mut elsewhere = check_clear(&Case::new(&[0; SIZE], &[]));
    let mut random = Random::part(seed, 3);
    for _ in 0..CLEARED {
        let tables = any_bytes(&mut random);
        let queue = any_queue(&mut random, &tables);
        let defaults = defaults(&mut random);
        elsewhere += check_clear(&Case { queue, defaults, ..Case::new(&tables, &[]) });
    }

    let mut lists = Lists { trace, ..Lists::default() };
    lists::cases(seed).for_each(|list| lists.compare(&list));
    let mut files = Files { trace, ..Files::default() };
    files::cases(seed).for_each(|file| files.compare(&file));
    let mut texts = Texts { trace, ..Texts::default() };
    texts::cases().for_each(|case| texts.compare(&case));
    let mut picks = Picks::new(seed);

    let mut histogram = Histogram::new();
    let mut judged = 0;
    walk(seed, records, |_, case| {
        if trace {
            println!("{}", case.line());
        }
        let outcome = judge(case);
        histogram.add(case, &outcome);
        let expected = Seen::new(outcome, case);
        let found = library::judge(case);
        let pair = (expected.answer, found.answer);
        if !expected.same(&found) && differences.add(pair) {
            let small = shrink(case.clone(), |case| differs_so(case, pair));
            println!("a difference, made as small as it goes:");
            show_case(&small);
            show_command("--replay", &small.line());
        }
        judged += 1;
        if judged % RECORDS_BETWEEN_CLEARS == 0 {
            elsewhere += check_clear(case);
        }
        if let Some(case) = picks.pick(&expected.tables, &expected.queue) {
            texts.compare(&case);
        }
        expected.after()
    });
    print!("{histogram}");
    println!("fresh tables: {begun}, tables cleared: {cleared}");
    println!("{}", texts.counts);
    println!("{}", lists.counts);
    println!("{}", files.counts);
    elsewhere
        + [differences, texts.differences, lists.differences, files.differences]
            .map(|kind| kind.count)
            .iter()
            .sum::<u64>()
}

/// Differences of one kind, and the pairs of answers of which one was shown.
#[derive(Default)]
struct Differences {
    count: u64,
    shown: Vec<(u8, u8)>,
}

impl Differences {
    /// Counts one, and says whether it is to be shown.
    fn add(&mut self, pair: (u8, u8)) -> bool {
        self.count += 1;
        let shows = self.shown.len() < SHOWN && !self.shown.contains(&pair);
        if shows {
            self.shown.push(pair);
        }
        shows
    }
}

/// The office texts compared so far.
#[derive(Default)]
struct Texts {
    trace: bool,
    counts: texts::Counts,
    differences: Differences,
}

impl Texts {
    fn compare(&mut self, case: &Case) {
        if self.trace {
            println!("{}", case.line());
        }
        let (expected, found) = listed(case);
        self.counts.add(case, &expected);
        let pair = (expected.answer, found.answer);
        if expected != found && self.differences.add(pair) {
            let small = texts::shrink(case.clone(), |case| text_differs_so(case, pair));
            println!("a difference in the office text, made as small as it goes:");
            println!("{}", small.line());
            show_text(&small);
            show_command("--replay", &small.line());
        }
    }
}

/// The lists compared so far.
#[derive(Default)]
struct Lists {
    trace: bool,
    counts: lists::Counts,
    differences: Differences,
}

impl Lists {
    fn compare(&mut self, list: &[u8]) {
        if self.trace {
            println!("list {}", hex::write(list));
        }
        let (expected, found) = said(list);
        self.counts.add(expected);
        let pair = (expected.answer, found.answer);
        if expected != found && self.differences.add(pair) {
            let small = lists::shrink(list.to_vec(), |list| list_differs_so(list, pair));
            println!("a difference in the test of a list, made as small as it goes:");
            show_list(&small);
            show_command("--replay-list", &hex::write(&small));
        }
    }
}

/// What both say of a list.
fn said(list: &[u8]) -> (Tested, Tested) {
    (test(list), library::tested(list))
}

/// Whether what they say differs with just these two answers.
fn list_differs_so(list: &[u8], pair: (u8, u8)) -> bool {
    let (expected, found) = said(list);
    (expected.answer, found.answer) == pair && expected != found
}

fn show_list(list: &[u8]) {
    let (expected, found) = said(list);
    println!("{}", hex::write(list));
    println!("  by the model:   answer {}, row {}", expected.answer, expected.row);
    println!("  by the library: answer {}, row {}", found.answer, found.row);
}

/// The files of older terminals compared so far.
#[derive(Default)]
struct Files {
    trace: bool,
    counts: files::Counts,
    differences: Differences,
}

impl Files {
    fn compare(&mut self, file: &File) {
        if self.trace {
            println!("older {}", file.line());
        }
        let (expected, found) = made(file);
        self.counts.add(file, &expected);
        let pair = (expected.answer, found.answer);
        if expected != found && self.differences.add(pair) {
            let small = files::shrink(file.clone(), |file| file_differs_so(file, pair));
            println!("a difference in the conversion of an older list, made as small as it goes:");
            show_file(&small);
            show_command("--replay-older", &small.line());
        }
    }
}

/// What both make of a file.
fn made(file: &File) -> (Converted, Converted) {
    (Converted::expected(file), library::converted(file))
}

/// Whether what they make of it differs with just these two answers.
fn file_differs_so(file: &File, pair: (u8, u8)) -> bool {
    let (expected, found) = made(file);
    (expected.answer, found.answer) == pair && expected != found
}

fn show_file(file: &File) {
    let (expected, found) = made(file);
    println!("{}", file.line());
    println!("  by the model:   {}", expected.describe());
    println!("  by the library: {}", found.describe());
    if let Some(place) = first_change(&expected.buffer, &found.buffer) {
        println!("  the buffers afterwards differ first at byte {place}");
    }
}

/// Where fresh tables or queue differ.
fn fresh_differs(case: &Case) -> Option<String> {
    not_fresh(case, library::fresh(case))
}

/// Where cleared tables or queue differ.
fn clear_differs(case: &Case) -> Option<String> {
    not_fresh(case, library::clear(case))
}

fn not_fresh(case: &Case, (tables, queue): (TableBytes, QueueBytes)) -> Option<String> {
    let in_tables = first_change(&tables, &case.defaults.fresh().bytes()).map(field);
    in_tables.or_else(|| queue.trimmed().iter().position(|&byte| byte != 0).map(queue::field))
}

fn show_small(case: &Case, what: &str, differs: fn(&Case) -> Option<String>) {
    let case = Case { call: Call::Judge, clock: 0, record: Vec::new(), capacity: 0, ..case.clone() };
    let small = shrink(case, |case| differs(case).is_some());
    println!("{what} {}", differs(&small).unwrap_or("no difference".into()));
    show_command("--replay", &small.line());
}

fn outcomes(case: &Case) -> (Seen, Seen) {
    (case.expected(), library::judge(case))
}

/// Whether the case differs with just these two answers.
fn differs_so(case: &Case, pair: (u8, u8)) -> bool {
    let (expected, found) = outcomes(case);
    (expected.answer, found.answer) == pair && !expected.same(&found)
}

fn show_case(case: &Case) {
    let (expected, found) = outcomes(case);
    println!("{}", case.line());
    println!("  model:   {}", expected.describe(case));
    println!("  library: {}", found.describe(case));
    if let Some(place) = first_change(&expected.buffer, &found.buffer) {
        println!("  the buffers afterwards differ first at byte {place}");
    }
    if let Some(place) = first_change(&expected.record, &found.record) {
        println!("  the records handed out differ first at byte {place}");
    }
    if let Some(place) = first_change(&expected.tables, &found.tables) {
        println!("  the tables afterwards differ first at {}", field(place));
    }
    if let Some(place) = first_change(&expected.queue.whole(), &found.queue.whole()) {
        println!("  what waits afterwards differs first at {}", queue::field(place));
    }
}

fn listed(case: &Case) -> (Listed, Listed) {
    (Listed::expected(case), library::list(case))
}

/// Whether the office text of a case differs with just these two answers.
fn text_differs_so(case: &Case, pair: (u8, u8)) -> bool {
    let (expected, found) = listed(case);
    (expected.answer, found.answer) == pair && expected != found
}

fn show_text(case: &Case) {
    let (expected, found) = listed(case);
    println!("  text by the model:   {}", expected.describe());
    println!("  text by the library: {}", found.describe());
    if let Some(place) = first_change(&expected.buffer, &found.buffer) {
        println!("  the buffers afterwards differ first at byte {place}");
    }
}

fn show_command(option: &str, line: &str) {
    let program = std::env::args().next().unwrap_or("compare".into());
    println!("  to replay: {program} {option} {line}");
}

/// One case, with fresh tables, the clear button and the office text.
fn replay(case: &Case) -> u64 {
    show_case(case);
    let (expected, found) = outcomes(case);
    let mut differences = u64::from(!expected.same(&found));
    if let Some(place) = fresh_differs(case) {
        println!("  fresh tables differ at {place}");
        differences += 1;
    }
    if let Some(place) = clear_differs(case) {
        println!("  the clear button leaves {place}");
        differences += 1;
    }
    show_text(case);
    let (expected, found) = listed(case);
    differences + u64::from(expected != found)
}
