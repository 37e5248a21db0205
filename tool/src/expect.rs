//! `test FILE.toml`: a yard's own expectations of its tables: what a record gets
//! at a clock.

use std::path::{Path, PathBuf};
use std::str::FromStr;

use answers::colour::verdict;
use answers::judge::Judged;
use answers::parse::{self, did_you_mean};
use answers::report::{many, Report, Status};
use answers::steps::{Act, Step};
use answers::times::{self, Day};
use answers::words;
use serde_json::{json, Value};
use tillerclover::{Answer, Permission, Terminal};
use toml::value::Table;

use crate::error::{name, one_line, Error};
use crate::{names, nesting, store};

/// What an answer is to be.
#[derive(Clone, Copy, Debug, PartialEq, Eq)]
enum Wanted {
    /// This one.
    Answer(Answer),
    /// Any refusal.
    Refused,
}

/// One expectation.
#[derive(Clone, Debug)]
struct Expectation {
    name: String,
    step: Step,
    wanted: Wanted,
    permission: Option<Permission>,
}

/// What came of one.
struct Checked {
    expectation: Expectation,
    judged: Judged,
}

/// Tests a file of expectations: status 0 where all are met.
pub fn test(path: &Path, names: Option<&Path>) -> Result<Report, Error> {
    let text = store::read_text(path)?;
    let beside = |tables: &str| path.parent().unwrap_or(Path::new("")).join(tables);
    let tables = Suite::tables(&text).map(|tables| beside(&tables)).map_err(|error| Error::of(path, error))?;
    names::choose_for(names, Some(&tables))?;
    let suite: Suite = text.parse().map_err(|error: String| Error::of(path, error))?;
    let mut terminal = store::whole_tables(&tables, Default::default())?.terminal;
    let results: Vec<Checked> =
        suite.expectations.iter().map(|expectation| expectation.ask(&mut terminal, suite.sequence)).collect();
    Ok(report(path, &tables, &results))
}

/// The tables that a file of expectations is about, where it says so.
pub fn tables_of(path: &Path) -> Option<PathBuf> {
    let text = store::read_text(path).ok()?;
    Suite::tables(&text).ok().map(|tables| path.parent().unwrap_or(Path::new("")).join(tables))
}

/// A whole file.
pub struct Suite {
    sequence: bool,
    expectations: Vec<Expectation>,
}

/// The values of a text that is not nested too deep.
fn toml_of(text: &str) -> Result<toml::Value, String> {
    match nesting::too_deep(text) {
        Some(line) => Err(format!("line {line} is nested deeper than any expectation")),
        None => text.parse().map_err(|error| format!("no TOML: {error}")),
    }
}

impl Suite {
    /// The file with the tables, which has to be known before names can be read.
    fn tables(text: &str) -> Result<String, String> {
        let toml = toml_of(text)?;
        let table = toml.as_table().ok_or("it is no table")?;
        let tables = string(table, "tables")?;
        tables.map(String::from).ok_or("tables is missing: the file with the tables, beside this one".into())
    }
}

impl FromStr for Suite {
    type Err = String;

    fn from_str(text: &str) -> Result<Suite, String> {
        let toml = toml_of(text)?;
        let table = table(&toml, &["tables", "clock", "sequence", "expect"])?;
        let clock = clock(table)?;
        let list = table.get("expect").and_then(toml::Value::as_array).filter(|list| !list.is_empty());
        let list = list.ok_or("there is no [[expect]]")?;
        let one = |(place, value): (usize, &toml::Value)| {
            Expectation::read(place + 1, value, clock).map_err(|error| format!("expectation {}: {error}", place + 1))
        };
        Ok(Suite {
            sequence: flag(table, "sequence")?,
            expectations: list.iter().enumerate().map(one).collect::<Result<_, _>>()?,
        })
    }
}

fn table<'a>(value: &'a toml::Value, keys: &[&str]) -> Result<&'a Table, String> {
    let table = value.as_table().ok_or("it is no table")?;
    match table.keys().find(|key| !keys.contains(&key.as_str())) {
        Some(key) => {
            let known: Vec<String> = keys.iter().map(|key| key.to_string()).collect();
            Err(format!("unknown key '{key}'{}; there are {}", did_you_mean(key, &known), known.join(", ")))
        }
        None => Ok(table),
    }
}

fn string<'a>(table: &'a Table, key: &str) -> Result<Option<&'a str>, String> {
    let text = |value: &'a toml::Value| value.as_str().ok_or_else(|| format!("{key} is a text in quotes, not {value}"));
    table.get(key).map(text).transpose()
}

fn flag(table: &Table, key: &str) -> Result<bool, String> {
    let flag = |value: &toml::Value| value.as_bool().ok_or_else(|| format!("{key} is true or false, not {value}"));
    table.get(key).map_or(Ok(false), flag)
}

fn clock(table: &Table) -> Result<Option<u32>, String> {
    let text = match table.get("clock") {
        None => return Ok(None),
        Some(toml::Value::String(text)) => text.clone(),
        Some(value @ (toml::Value::Datetime(_) | toml::Value::Integer(_))) => value.to_string(),
        Some(value) => return Err(format!("clock is a time, not {value}")),
    };
    times::read(&text, Day::Begins).map(Some).map_err(|error| format!("clock: {error}"))
}

impl Expectation {
    fn read(place: usize, value: &toml::Value, otherwise: Option<u32>) -> Result<Expectation, String> {
        let table = table(value, &["name", "record", "hand-in", "take", "clock", "answer", "permission"])?;
        let record = |key: &str| {
            let text = string(table, key)?;
            text.map(|text| parse::one(text).map_err(|error| format!("{key} '{text}': {error}"))).transpose()
        };
        let act = match (record("record")?, record("hand-in")?, flag(table, "take")?) {
            (Some(record), None, false) => Act::Judge(record),
            (None, Some(record), false) => Act::HandIn(record),
            (None, None, true) => Act::Take,
            _ => return Err("one of record, hand-in and take = true says what is done".into()),
        };
        let letters = string(table, "permission")?;
        let permission = letters
            .map(|letters| letters.parse().map_err(|_| format!("permission '{letters}' has other letters than CRUDN")))
            .transpose()?;
        let name = string(table, "name")?.map_or_else(|| name_of(place, &act), String::from);
        let wanted = wanted(table.get("answer").ok_or("answer is missing")?)?;
        let clock = clock(table)?.or(otherwise).map_or_else(times::now, Ok)?;
        Ok(Expectation { name, step: Step { clock, act }, wanted, permission })
    }

    /// On the tables of the file, or after the expectations before.
    fn ask(&self, terminal: &mut Terminal, sequence: bool) -> Checked {
        let mut copy = terminal.clone();
        let judged = Judged::new(if sequence { terminal } else { &mut copy }, self.step.clone());
        Checked { expectation: self.clone(), judged }
    }

    fn wanted_words(&self) -> String {
        let answer = match self.wanted {
            Wanted::Answer(answer) => format!("{} {answer}", answer.number()),
            Wanted::Refused => "refused".into(),
        };
        self.permission.map_or(answer.clone(), |permission| format!("{answer}, {permission}"))
    }
}

fn name_of(place: usize, act: &Act) -> String {
    match act {
        Act::Judge(record) => format!("{place}: {}", words::record(record)),
        Act::HandIn(record) => format!("{place}: hand-in {}", words::record(record)),
        Act::Take => format!("{place}: take"),
    }
}

/// A number, the words of an answer, or `refused`.
fn wanted(value: &toml::Value) -> Result<Wanted, String> {
    let known = match value {
        toml::Value::Integer(number) => u8::try_from(*number).ok().map(Answer).filter(|answer| answer.name().is_some()),
        toml::Value::String(text) if text == "refused" => return Ok(Wanted::Refused),
        toml::Value::String(text) => Answer::named(text),
        _ => None,
    };
    let names: Vec<String> = Answer::ALL.iter().map(Answer::to_string).collect();
    let near = value.as_str().map(|text| did_you_mean(text, &names)).unwrap_or_default();
    let error = || format!("answer {value} is no number of an answer, its words, or \"refused\"{near}");
    known.map(Wanted::Answer).ok_or_else(error)
}

impl Checked {
    fn met(&self) -> bool {
        let answer = self.judged.answer();
        let right = match self.expectation.wanted {
            Wanted::Answer(wanted) => answer == wanted,
            Wanted::Refused => !answer.is_permitted(),
        };
        right && self.expectation.permission.is_none_or(|wanted| wanted == self.judged.permission())
    }

    fn found(&self) -> String {
        let (answer, permission) = (self.judged.answer(), self.judged.permission());
        let letters = if answer.is_permitted() { format!(", {permission}") } else { String::new() };
        format!("{} {answer}{letters}", answer.number())
    }

    fn text(&self) -> String {
        let name = one_line(&self.expectation.name);
        match self.met() {
            true => format!("{}    {name}\n", verdict(true, "ok")),
            false => format!(
                "{}  {name}\n      expected {}; found {}, at {}\n",
                verdict(false, "FAIL"),
                self.expectation.wanted_words(),
                self.found(),
                times::word(self.expectation.step.clock)
            ),
        }
    }

    fn json(&self) -> Value {
        json!({
            "name": self.expectation.name,
            "met": self.met(),
            "expected": self.expectation.wanted_words(),
            "found": self.judged.json(),
        })
    }
}

fn report(path: &Path, tables: &Path, results: &[Checked]) -> Report {
    let met = results.iter().filter(|result| result.met()).count();
    let count = many(results.len(), "expectation");
    let summary = format!("{}: {count}, {met} met, {} not\n", name(path), results.len() - met);
    let json = json!({
        "file": path.display().to_string(),
        "tables": tables.display().to_string(),
        "met": met,
        "not_met": results.len() - met,
        "expectations": results.iter().map(Checked::json).collect::<Vec<_>>(),
    });
    let text = results.iter().map(Checked::text).collect::<String>() + &summary;
    Report::new(text, json, Status::of(met == results.len()))
}
