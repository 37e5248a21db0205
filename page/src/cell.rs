//! A cell of the table of rights: what each verb of a sender gets on a resource, why,
//! and at which times.

use answers::error::Error;
use answers::report::{Report, Status};
use answers::senders::Sender;
use answers::{parse, show, when, why};
use serde_json::{json, Value};
use tillerclover::{record, Role, Tables, Verb};

use crate::asked::Asked;
use crate::{only, Answer};

/// Every verb, with a record that has no body. Whoever asserts a role is asked about on a terminal of its own, where it has nothing else.
pub fn cell(asked: &Asked) -> Answer {
    let (stored, clock) = (asked.stored()?, asked.clock()?);
    let resource = parse::resource(asked.text("resource")).map_err(Error::new)?;
    if let Some(report) = show::unless_sound(asked.path(), &stored) {
        return only(report);
    }
    let sender = sender(asked, &stored.terminal.tables)?;
    let (terminal, number) = sender.at(&stored.terminal);
    let verbs: Vec<Value> = Verb::ALL
        .iter()
        .map(|&verb| {
            let record = record(verb, resource, number, &[]);
            json!({
                "verb": verb.to_string(),
                "why": why::explain(&terminal, clock, &record).report(stored.start()).json,
                "when": when::report(&terminal, clock, &record).json,
            })
        })
        .collect();
    let json =
        json!({ "sender": sender.json(), "words": sender.words(), "resource": resource.to_string(), "verbs": verbs });
    only(Report::new(sender.words(), json, Status::Yes))
}

/// The sender as the reports have it for programs.
fn sender(asked: &Asked, tables: &Tables) -> Result<Sender, Error> {
    let one = Asked { question: &asked.question["of"], file: &[] };
    let number = |key| one.number::<u16>(key).ok_or_else(|| Error::new(format!("which {key}?")));
    match one.text("kind") {
        "clear" => Ok(Sender::Clear),
        "credential" => {
            let number = number("number")?;
            let row = tables.creds().into_iter().find(|row| row.number == number);
            row.map(Sender::Credential).ok_or_else(|| Error::new(format!("no credential row has number {number}")))
        }
        "asserting" => Ok(Sender::Asserting(Role { number: number("role")?, authority: number("authority")? })),
        other => Err(Error::new(format!("unknown kind of sender '{other}'"))),
    }
}
