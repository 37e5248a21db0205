//! Records judged, handed in and taken, and what each of them gets and changes,
//! in words.

use serde_json::{json, Value};
use tillerclover::{Answer, Header, Permission, Response, Set, Terminal};

use crate::colour::verdict;
use crate::diff::{changes, Change};
use crate::report::many;
use crate::steps::{Act, Step};
use crate::{hex, names, words};

/// A step with what became of it.
pub struct Judged {
    act: &'static str,
    clock: u32,
    record: Vec<u8>,
    response: Response,
    changes: Vec<Change>,
}

/// Does a step: what it is called, the record that it is about, and what the library says.
pub fn perform(terminal: &mut Terminal, step: Step) -> (&'static str, Vec<u8>, Response) {
    let Step { clock, act } = step;
    match act {
        Act::Judge(record) => {
            let response = terminal.judge(clock, &record);
            ("judge", record, response)
        }
        Act::HandIn(record) => {
            let response = answered(terminal.hand_in(&record));
            ("hand-in", record, response)
        }
        Act::Take => {
            let (record, response) = terminal.take(clock);
            ("take", record, response)
        }
    }
}

/// A step's name and its record in words.
pub fn step_words(act: &str, record: &[u8]) -> String {
    match act {
        "judge" => words::record(record),
        _ if record.is_empty() => act.into(),
        "take" => format!("take: {}", words::record(record)),
        _ => format!("{act} {}", words::record(record)),
    }
}

impl Judged {
    /// Does a step.
    pub fn new(terminal: &mut Terminal, step: Step) -> Judged {
        let (before, clock) = (terminal.clone(), step.clock);
        let (act, record, response) = perform(terminal, step);
        Judged { act, clock, record, response, changes: changes(&before, terminal) }
    }

    /// Whether it was permitted, or kept.
    pub fn permitted(&self) -> bool {
        self.response.answer.is_permitted()
    }

    /// What the library said.
    pub fn answer(&self) -> Answer {
        self.response.answer
    }

    /// The effective permission.
    pub fn permission(&self) -> Permission {
        self.response.permission
    }

    /// The answer and the record, and below it what came of it.
    pub fn text(&self) -> String {
        let Response { answer, permission, .. } = &self.response;
        let word = match (self.permitted(), self.act) {
            (true, "hand-in") => "kept",
            (true, _) => "permitted",
            (false, _) if *answer == Answer::NOTHING_WAITING => "nothing",
            (false, _) => "refused",
        };
        let told = if self.permitted() { permission.to_string() } else { format!("{:<5}", answer.number()) };
        let further: String = self.further().iter().map(|line| format!("{:18}{line}\n", "")).collect();
        let padding = " ".repeat(9 - word.len());
        format!("{}{padding}  {told}  {}\n{further}", verdict(self.permitted(), word), self.named_words())
    }

    /// The step in words, and the name of its sender as a comment.
    fn named_words(&self) -> String {
        let name = Header::read(&self.record).and_then(|header| names::of_number(header.sender));
        let comment = name.map_or(String::new(), |name| format!("  # {name}"));
        step_words(self.act, &self.record) + &comment
    }

    fn further(&self) -> Vec<String> {
        let Response { answer, payload, reply, links, .. } = &self.response;
        let mut lines = Vec::new();
        if !self.permitted() {
            lines.push(answer.to_string());
        }
        lines.extend(self.changes.iter().map(Change::text));
        if !payload.is_empty() {
            lines.push(format!("passes on {}", many(payload.len(), "byte")));
        }
        if links.0 != 0 {
            lines.push(format!("links {}", words::set(*links).join(" ")));
        }
        if !reply.is_empty() {
            lines.push(format!("replies {}:", many(reply.len(), "byte")));
            lines.extend(self.reply());
        }
        lines
    }

    fn reply(&self) -> Vec<String> {
        match Header::read(&self.record) {
            Some(header) if !self.response.reply.is_empty() => words::reply(header.resource, &self.response.reply),
            _ => Vec::new(),
        }
    }

    /// The same for programs.
    pub fn json(&self) -> Value {
        let Response { answer, permission, payload, reply, places, links } = &self.response;
        json!({
            "act": self.act,
            "clock": self.clock,
            "record": hex::write(&self.record),
            "words": words::record(&self.record),
            "answer": words::answer_json(*answer),
            "permission": words::permission_json(*permission),
            "payload": hex::write(payload),
            "reply": hex::write(reply),
            "reply_words": self.reply(),
            "places": { "first": places.start, "many": places.len() },
            "links": words::set(*links),
            "changes": self.changes.iter().map(Change::json).collect::<Vec<_>>(),
        })
    }
}

/// A response that is only its answer.
fn answered(answer: Answer) -> Response {
    Response {
        answer,
        permission: Permission::NONE,
        payload: Vec::new(),
        reply: Vec::new(),
        places: 0..0,
        links: Set::EMPTY,
    }
}
