//! What `run` prints is compared with the run program's text, by the model.

#![forbid(unsafe_code)]

use std::io::Read;

use tillerclover::Terminal;
use tool::run::{run, Shown, LIMIT};

/// A run has the numbers that the run program prints.
#[test]
fn runs_have_the_numbers_of_the_run_program() {
    for input in (0..60).map(|run| model::generate::run_input(1, run)) {
        let mut text = Vec::new();
        let shown = Shown { json: false, length: None };
        run(input.as_slice().take(LIMIT), Terminal::new(), &shown, &mut text).expect("a text in memory");
        let numbers = |line: &str| {
            let words = if line.starts_with("cut") { 1 } else { 4 };
            line.split(' ').take(words).collect::<Vec<_>>().join(" ") + "\n"
        };
        let text: String = String::from_utf8(text).expect("words").lines().map(numbers).collect();
        assert_eq!(text, model::run::text(&input));
    }
}
