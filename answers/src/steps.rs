//! What is done with a terminal one thing after the other: records judged at
//! once, handed in or taken, one to a line of a text.

use tillerclover::Verb;

use crate::parse;
use crate::times::{self, Day};

/// One thing that is done.
#[derive(Clone, Debug, PartialEq, Eq)]
pub enum Act {
    /// A record is judged directly.
    Judge(Vec<u8>),
    /// A record is handed in, to wait for its turn.
    HandIn(Vec<u8>),
    /// The record whose turn it is is taken and judged.
    Take,
}

/// An act at a clock.
#[derive(Clone, Debug, PartialEq, Eq)]
pub struct Step {
    /// The terminal's clock.
    pub clock: u32,
    /// What is done.
    pub act: Act,
}

/// How a record among the arguments is meant.
pub type Make = fn(Vec<u8>) -> Act;

/// The steps of a text, one to a line. `#` begins a comment, and `at TIME` before a record sets the clock from there on.
pub fn of_lines(text: &str, mut clock: u32, make: Make) -> Result<Vec<Step>, String> {
    let mut steps = Vec::new();
    for (place, line) in text.lines().enumerate() {
        let line = without_comment(line);
        if !line.is_empty() {
            let step = of_line(line, clock, make).map_err(|error| format!("line {}: {error}", place + 1))?;
            clock = step.clock;
            steps.push(step);
        }
    }
    Ok(steps)
}

/// A line without its comment and the space around it. A comment begins the line, or follows a space.
pub fn without_comment(line: &str) -> &str {
    let end = line.find(" #").into_iter().chain(line.find("\t#")).min().unwrap_or(line.len());
    let line = if line.starts_with('#') { "" } else { &line[..end] };
    line.trim()
}

/// One step in words: `[at TIME] RECORD`, `[at TIME] hand-in RECORD` or `[at TIME] take`.
pub fn of_line(line: &str, clock: u32, make: Make) -> Result<Step, String> {
    let (clock, rest) = match line.strip_prefix("at ") {
        None => (clock, line),
        Some(rest) => {
            let (time, rest) =
                rest.trim_start().split_once(char::is_whitespace).ok_or("'at' needs a time and a record")?;
            (times::read(time, Day::Begins)?, rest.trim_start())
        }
    };
    let act = match rest.split_once(char::is_whitespace) {
        None if rest == "take" => Act::Take,
        Some(("hand-in", record)) => Act::HandIn(parse::one(record)?),
        Some(("judge", record)) => Act::Judge(parse::one(record)?),
        _ => make(parse::one(rest).map_err(|error| also(rest, error))?),
    };
    Ok(Step { clock, act })
}

/// A line may also begin with other words than a record.
fn also(line: &str, error: String) -> String {
    let first = line.split_whitespace().next().unwrap_or_default();
    let word = Verb::named(first).is_none() && first.chars().all(|letter| letter.is_alphabetic() || letter == '-');
    if word && first.len() > 2 {
        format!("{error}; a line may also begin with hand-in, take or at TIME")
    } else {
        error
    }
}

#[cfg(test)]
mod tests {
    use super::*;

    #[test]
    fn lines_of_all_kinds() {
        let text =
            "# a day\n\nRETRIEVE /weight # the plate\n  at 100 hand-in 22000000\ntake\nUPDATE /tare as 7 text:a#b";
        let weight = vec![0x22, 0, 0, 0];
        let steps = of_lines(text, 5, Act::Judge).unwrap();
        assert_eq!(steps[0], Step { clock: 5, act: Act::Judge(weight.clone()) });
        assert_eq!(steps[1], Step { clock: 100, act: Act::HandIn(weight) });
        assert_eq!(steps[2], Step { clock: 100, act: Act::Take });
        assert_eq!(steps[3], Step { clock: 100, act: Act::Judge(b"\x52\x40\0\x07a#b".to_vec()) });
        assert_eq!(without_comment("a\t# b # c"), "a");
        assert_eq!(without_comment("a b\t#"), "a b");
        assert_eq!(without_comment("\t# a"), "");
        let error = of_lines("RETRIEVE /weight\n\ngive /tare", 0, Act::Judge).unwrap_err();
        assert!(error.starts_with("line 3: unknown word 'give'") && error.ends_with("take or at TIME"), "{error}");
    }
}
