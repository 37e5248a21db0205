//! What the offline page asks. Each question is an object and the bytes of a file;
//! the answer is the command's own report, and the bytes of the file afterwards.
//! Nothing is kept between two questions.

#![deny(unsafe_code)]

pub mod names;

#[cfg(target_arch = "wasm32")]
#[allow(unsafe_code)]
mod memory;

mod asked;
mod cell;
mod journal;
mod lists;
mod tables;

use answers::error::Error;
use answers::report::{Report, Status};
use answers::times;
use serde_json::{json, Value};

use asked::Asked;

/// A report, and the file as it is then where the question makes or changes one.
type Answer = Result<(Report, Option<Vec<u8>>), Error>;

/// The answer to a question, as the page reads it.
pub fn answer(question: &Value, file: &[u8]) -> (Value, Vec<u8>) {
    match ask(&Asked { question, file }) {
        Ok((report, bytes)) => {
            let json = json!({
                "well": report.status == Status::Yes,
                "text": report.text,
                "json": report.json,
                "notices": report.notices,
                "file": bytes.is_some(),
            });
            (json, bytes.unwrap_or_default())
        }
        Err(error) => {
            let mut json = error.json();
            json["error"]["text"] = json!(error.to_string());
            (json, Vec::new())
        }
    }
}

fn ask(asked: &Asked) -> Answer {
    asked.surroundings()?;
    match asked.text("ask") {
        "version" => only(plain(String::new(), names::names())),
        "time" => {
            let second = asked.clock()?;
            only(plain(times::word(second), json!({ "second": second })))
        }
        "period" => only(plain(times::period(asked.period()), Value::Null)),
        "new" => tables::new(),
        "show" => tables::show(asked),
        "rights" => tables::rights(asked),
        "who" => tables::who(asked),
        "why" => tables::why(asked),
        "when" => tables::when(asked),
        "cell" => cell::cell(asked),
        "judge" => tables::judge(asked),
        "isolated" => tables::isolated(asked),
        "yards" => tables::yards(asked),
        "sheet" => tables::sheet(asked),
        "diff" => tables::diff(asked),
        "list check" => lists::check(asked),
        "list text" => lists::text(asked),
        "list make" => lists::make(asked),
        "list convert" => lists::convert(asked),
        "list load" => lists::load(asked),
        "journal check" => journal::check(asked),
        "journal show" => journal::show(asked),
        "journal why" => journal::why(asked),
        "journal tables" => journal::tables(asked),
        other => Err(Error::new(format!("unknown question '{other}'"))),
    }
}

/// A report that changes no file.
fn only(report: Report) -> Answer {
    Ok((report, None))
}

fn plain(text: String, json: Value) -> Report {
    Report::new(text, json, Status::Yes)
}
