//! Whole runs: inputs with their text, and a program compared by its text.

#![forbid(unsafe_code)]

use std::fs;
use std::io::{ErrorKind, Read, Write};
use std::process::{Child, Command, ExitStatus, Stdio};
use std::sync::mpsc;
use std::thread;
use std::time::Duration;

use model::generate::run_input;
use model::options::Program;
use model::random::Random;
use model::run;

const PROGRAM: Program = Program {
    name: "runs",
    help: "\
runs --program PATH [--runs N] [--seed S] [--run K]
runs --input FILE --expected FILE [--seed S] [--run K]

Makes inputs of whole runs. The first form gives each to the program at PATH
and compares its text byte for byte; the second writes one input and the text
it is to give.

  --program PATH   the run program
  --runs N         so many runs (default 200)
  --input FILE     where to write the input
  --expected FILE  where to write the text
  --seed S         another choice of runs (default 1)
  --run K          only run K, counted from 0
  --help           this text

Ends with 0 when all texts are equal, with 1 when one is not.
",
    valued: &["--program", "--runs", "--input", "--expected", "--seed", "--run"],
    flags: &[],
    free: 0,
};

const PATIENCE: Duration = Duration::from_secs(30);
const SHOWN: u64 = 5;

fn main() {
    let options = PROGRAM.options();
    let seed = PROGRAM.number(&options, "--seed", 1);
    let only = options.text("--run").map(|_| PROGRAM.number(&options, "--run", 0));
    match (options.text("--program"), options.text("--input"), options.text("--expected")) {
        (Some(path), None, None) => {
            if only.is_some() && options.text("--runs").is_some() {
                PROGRAM.stop("give either --run or --runs");
            }
            let runs = PROGRAM.number(&options, "--runs", 200);
            compare(path, seed, only.map_or(0..runs, |run| run..run.saturating_add(1)));
        }
        (None, Some(input), Some(expected)) => {
            if options.text("--runs").is_some() {
                PROGRAM.stop("--runs goes with --program; a file holds one run, chosen by --run");
            }
            let bytes = run_input(seed, only.unwrap_or(100));
            write(input, &bytes);
            let text = run::text(&bytes);
            write(expected, text.as_bytes());
            println!("runs: wrote {} bytes and {} lines", bytes.len(), text.lines().count());
        }
        _ => PROGRAM.stop("give either --program, or --input and --expected; see runs --help"),
    }
}

fn write(file: &str, bytes: &[u8]) {
    if let Err(fault) = fs::write(file, bytes) {
        PROGRAM.stop(format!("cannot write {file}: {fault}"));
    }
}

fn compare(path: &str, seed: u64, runs: std::ops::Range<u64>) {
    let count = runs.end - runs.start;
    let mut differences = 0;
    let mut ended_otherwise = 0;
    for run in runs {
        let input = run_input(seed, run);
        let expected = run::text(&input);
        let (difference, status) = match text_of(path, &input, Random::part(seed, run)) {
            Ok((text, status)) => (difference(&expected, &text, status), Some(status)),
            Err(fault) => (Some(fault), None),
        };
        if status.is_some_and(|status| !status.success()) {
            ended_otherwise += 1;
        }
        if let Some(difference) = difference {
            differences += 1;
            if differences <= SHOWN {
                println!("run {run}, {} bytes of input: {difference}", input.len());
                println!("  its input and text: runs --seed {seed} --run {run} --input in.bin --expected out.txt");
            }
        }
    }
    if ended_otherwise > 0 {
        println!("note: {ended_otherwise} runs ended with another status than 0");
    }
    println!("runs: {count} runs, {differences} differences");
    std::process::exit(if differences == 0 { 0 } else { 1 });
}

/// What the program prints for an input that comes in pieces.
fn text_of(path: &str, input: &[u8], random: Random) -> Result<(Vec<u8>, ExitStatus), String> {
    let started = Command::new(path).stdin(Stdio::piped()).stdout(Stdio::piped()).spawn();
    let mut child: Child = match started {
        Ok(child) => child,
        Err(fault) => PROGRAM.stop(format!("cannot start {path}: {fault}")),
    };
    let mut stdin = child.stdin.take().expect("piped");
    let mut stdout = child.stdout.take().expect("piped");
    let bytes = input.to_vec();
    let writer = thread::spawn(move || write_in_pieces(&mut stdin, &bytes, random));
    let (sender, receiver) = mpsc::channel();
    thread::spawn(move || {
        let mut text = Vec::new();
        let read = stdout.read_to_end(&mut text).map(|_| text);
        let _ = sender.send(read);
    });
    let text = match receiver.recv_timeout(PATIENCE) {
        Ok(Ok(text)) => text,
        Ok(Err(fault)) => return Err(format!("its text could not be read: {fault}")),
        Err(_) => {
            let _ = child.kill();
            let _ = child.wait();
            return Err(format!("no end after {} seconds", PATIENCE.as_secs()));
        }
    };
    let status = child.wait().map_err(|fault| format!("its end could not be seen: {fault}"))?;
    match writer.join() {
        Ok(Ok(())) => Ok((text, status)),
        Ok(Err(fault)) => Err(format!("its input could not be written: {fault}")),
        Err(_) => Err("its input could not be written".into()),
    }
}

/// A program may stop reading early: a closed pipe is no fault.
fn write_in_pieces(stdin: &mut impl Write, bytes: &[u8], mut random: Random) -> std::io::Result<()> {
    let largest = random.pick(&[7, 300, 5000, 100_000]);
    let mut rest = bytes;
    while !rest.is_empty() {
        let (piece, behind) = rest.split_at(random.between(1, largest).min(rest.len()));
        match stdin.write_all(piece) {
            Err(fault) if fault.kind() == ErrorKind::BrokenPipe => return Ok(()),
            other => other?,
        }
        if random.chance(10) {
            thread::yield_now();
        }
        rest = behind;
    }
    Ok(())
}

fn difference(expected: &str, text: &[u8], status: ExitStatus) -> Option<String> {
    if status.code().is_none() {
        return Some(format!("the program was stopped ({status})"));
    }
    if text == expected.as_bytes() {
        return None;
    }
    let text = String::from_utf8_lossy(text);
    let mut ours = expected.lines();
    let mut theirs = text.lines();
    for line in 1.. {
        match (ours.next(), theirs.next()) {
            (None, None) => break,
            (ours, theirs) if ours != theirs => {
                let show = |line: Option<&str>| line.map_or("no line".into(), |line| format!("'{line}'"));
                return Some(format!("line {line} is to be {} and is {}", show(ours), show(theirs)));
            }
            _ => {}
        }
    }
    Some("the same lines with other line ends".into())
}
