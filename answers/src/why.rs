//! `why`: the answer to a record explained. What is reported of permission comes from
//! the library; what is added in words speaks of only the bytes.

use serde_json::{json, Value};
use tillerclover::{pstat_body, Answer, Body, Connection, Header, Resource, Response, State, Tables, Terminal, Verb};

use crate::colour::verdict;
use crate::report::{columns, table, Report, Status};
use crate::rights::{rights, Fit, Probe, Rights};
use crate::soundness::{ace_faults, cred_faults, findings, Finding};
use crate::{hex, service, show, times, words};

/// An answer and what led to it.
pub struct Explanation {
    record: Vec<u8>,
    clock: u32,
    /// What the library said.
    pub response: Response,
    /// Who sends, in words.
    sender: String,
    /// What is not sound.
    faults: Vec<Finding>,
    /// Permission, where the checks got as far as that.
    pub rights: Option<Rights>,
    /// What was wrong, and what would be right.
    pub notes: Vec<String>,
}

/// Explains what a record gets. Nothing changes.
pub fn explain(terminal: &Terminal, clock: u32, record: &[u8]) -> Explanation {
    let response = terminal.ask(clock, record);
    let header = Header::read(record);
    let asked = header.filter(|_| passed(response.answer).contains(&Answer::NO_ENDPOINT));
    let rights = asked.map(|header| rights(&terminal.tables, clock, header));
    let mut notes =
        header.map_or_else(|| length_note(record), |header| notes(terminal, clock, header, record, response.answer));
    if response.answer == Answer::NOT_PERMITTED {
        notes.extend(rights.iter().flat_map(nearly));
    }
    if service::locked_out(terminal) {
        notes.push(service::LOCKED_OUT.into());
    }
    Explanation {
        record: record.to_vec(),
        clock,
        sender: header.map_or("an unauthenticated sender".into(), |header| sender(&terminal.tables, clock, header)),
        faults: findings(terminal),
        rights,
        notes,
        response,
    }
}

/// Rows that would give what is needed except for one part.
fn nearly(rights: &Rights) -> Vec<String> {
    let lacking = |fit: &Fit| match (fit.subject, fit.resource, fit.season) {
        (false, true, true) => Some("subject"),
        (true, false, true) => Some("resources"),
        (true, true, false) => Some("season"),
        (true, true, true) => Some("permission"),
        _ => None,
    };
    let given = |fit: &Fit| fit.row.permission.contains(rights.needed) || fit.fits;
    let rows = rights.rows.iter().filter(|fit| given(fit));
    rows.filter_map(|fit| Some(format!("access row {} would do but for its {}", fit.row.number, lacking(fit)?)))
        .collect()
}

/// The checks before the refusing one.
fn passed(answer: Answer) -> &'static [Answer] {
    let end = Answer::CHECKS.iter().position(|&check| check == answer).unwrap_or(Answer::CHECKS.len());
    &Answer::CHECKS[..end]
}

fn sender(tables: &Tables, clock: u32, header: Header) -> String {
    if header.connection != Connection::AUTH_CRYPT {
        return "an unauthenticated sender, over anon-clear".into();
    }
    let Some(row) = tables.creds().into_iter().find(|row| row.number == header.sender) else {
        return format!("credential {}, which no row has", header.sender);
    };
    let mut said = format!("{} of {}", words::named_sender(row.number), row.subject);
    if row.role.number != 0 {
        said += &format!(", role {}", words::named_role(row.role));
    }
    for place in row.asserted.iter().filter(|place| place.role.number != 0) {
        let over = if place.last < clock { " (over)" } else { "" };
        said += &format!(", asserted role {} to {}{over}", words::named_role(place.role), times::word(place.last));
    }
    said
}

fn length_note(record: &[u8]) -> Vec<String> {
    vec![format!("the record has {} bytes; one has 4 to 256", record.len())]
}

/// What was wrong, and what would be right.
fn notes(terminal: &Terminal, clock: u32, header: Header, record: &[u8], answer: Answer) -> Vec<String> {
    let Header { verb, connection, resource, zeros, sender } = header;
    let tables = &terminal.tables;
    let note = match answer {
        Answer::BAD_LENGTH => return length_note(record),
        Answer::NO_VERB => format!("verb {} in the first three bits; there are 0 to 4", verb.number()),
        Answer::ZERO_BIT_SET => format!("the six zero bits of the header are {zeros:06b}"),
        Answer::MISMATCH => {
            format!("{connection} with credential number {sender}; the number is 0 exactly over anon-clear")
        }
        Answer::UNKNOWN_RESOURCE => format!("no resource has number {}", resource.number()),
        Answer::NO_CREDENTIAL => numbers("credential", tables.creds().iter().map(|row| row.number)),
        Answer::NO_ENDPOINT => format!("{resource} is not served over {connection}"),
        Answer::NOT_OFFERED => {
            let verbs: Vec<String> = Probe::new(tables, clock, header).offered().iter().map(Verb::to_string).collect();
            format!("{resource} offers {}", verbs.join(", "))
        }
        Answer::MALFORMED => return body_notes(header, &record[Header::LENGTH..]),
        Answer::WRONG_STATE => state_note(terminal, clock, record),
        Answer::BAD_TARGET => target_note(terminal, clock, header),
        Answer::MISSING if resource == Resource::CRED => {
            numbers("credential", tables.creds().iter().map(|row| row.number))
        }
        Answer::MISSING => numbers("access", tables.aces().iter().map(|row| row.number)),
        Answer::FULL => format!("{resource} holds all the rows that it has room for"),
        Answer::ROLES_FULL => "the sender's row holds two other roles in force, and has room for no third".into(),
        _ => return Vec::new(),
    };
    vec![note]
}

fn numbers(what: &str, numbers: impl Iterator<Item = u16>) -> String {
    let numbers: Vec<String> = numbers.map(|number| number.to_string()).collect();
    match numbers.len() {
        0 => format!("there are no {what} rows"),
        _ => format!("there are {what} rows with the numbers {}", numbers.join(", ")),
    }
}

/// What is wrong with a body: its length, or the fields that the library would not store.
fn body_notes(header: Header, body: &[u8]) -> Vec<String> {
    let faults = match Body::read(header.verb, header.resource, body) {
        Body::Cred(row) => cred_faults(&row),
        Body::Ace(row) => ace_faults(&row),
        _ => Vec::new(),
    };
    if !faults.is_empty() {
        return faults;
    }
    let lengths = match (header.verb, header.resource) {
        (Verb::UPDATE, Resource::DOXM) => "16 (row owner) or 17 (device owner)",
        (Verb::UPDATE, Resource::PSTAT) => "16 (row owner) or 1 (target state)",
        (Verb::UPDATE, Resource::CRED) => "16 (row owner), or 23 or 21 (a row)",
        (Verb::UPDATE, Resource::ACL2) => "16 (row owner), or 36 or 28 (a row)",
        (Verb::UPDATE, Resource::ROLES) => "8 (a role)",
        (Verb::DELETE, Resource::CRED) => "0 (all rows), 2 (a number) or 16 (a subject)",
        (Verb::DELETE, Resource::ACL2) => "0 (all rows) or 2 (a number)",
        _ => "0",
    };
    vec![format!("the body has {} bytes; {} of {} takes {lengths}", body.len(), header.verb, header.resource)]
}

/// In which states the same record would be permitted.
fn state_note(terminal: &Terminal, clock: u32, record: &[u8]) -> String {
    let permits = |state: &State| {
        let mut other = terminal.clone();
        other.tables.state = state.number();
        other.judge(clock, record).answer.is_permitted()
    };
    let now = terminal.tables.state();
    let states: Vec<String> = State::ALL.iter().copied().filter(permits).map(|state| state.to_string()).collect();
    match states.len() {
        0 => format!("the state is {now}; the same record would be permitted in no state"),
        _ => format!("the state is {now}; the same record would be permitted in {}", states.join(", ")),
    }
}

/// Which states the sender could go to.
fn target_note(terminal: &Terminal, clock: u32, header: Header) -> String {
    let permits = |target: &State| {
        let record = [&header.to_bytes()[..], &pstat_body(*target)].concat();
        terminal.ask(clock, &record).answer.is_permitted()
    };
    let targets: Vec<String> = State::ALL.iter().copied().filter(permits).map(|state| state.to_string()).collect();
    format!("from {} the sender may go to {}", terminal.tables.state(), targets.join(", "))
}

impl Explanation {
    /// For people and programs.
    pub fn report(&self, start: usize) -> Report {
        Report::new(self.text(start), self.json(start), Status::of(self.response.answer.is_permitted()))
    }

    fn text(&self, start: usize) -> String {
        let answer = self.response.answer;
        let result =
            if answer.is_permitted() { "permitted".into() } else { format!("refused, {} {answer}", answer.number()) };
        let result = verdict(answer.is_permitted(), &result);
        let mut text = format!("{}\nat {}: {result}\n\n", words::record(&self.record), times::word(self.clock));
        let mut lines = vec![format!("checks\t{}", checks(answer)), format!("sender\t{}", self.sender)];
        lines.extend(self.rights.iter().flat_map(|rights| self.rights_lines(rights)));
        lines.extend(self.notes.iter().map(|note| format!("note\t{note}")));
        for Finding { place, byte, what } in &self.faults {
            lines.push(format!("not sound\t{place}, at byte {}: {what}", start + byte));
        }
        text += &columns(&lines);
        if let Some(rights) = self.rights.as_ref().filter(|rights| !rights.rows.is_empty()) {
            text += "\nAccess control entries, and whether their parts fit\n";
            let rows: Vec<String> = rights.rows.iter().map(row_line).collect();
            text += &table("number\tgives\tsubject\tresource\tseason\tthe row", &rows);
        }
        text
    }

    fn rights_lines(&self, rights: &Rights) -> Vec<String> {
        let verb = Header::read(&self.record).map_or(String::new(), |header| header.verb.to_string());
        let given = rights.rows.iter().filter(|row| !row.share.is_empty());
        let numbers: Vec<String> = given.map(|fit| fit.row.number.to_string()).collect();
        let mut from: Vec<String> = rights.sources.iter().map(|source| source.why.clone()).collect();
        if !numbers.is_empty() {
            from.push(format!("by access row {}", numbers.join(", ")));
        }
        let from = if from.is_empty() { "from nothing".into() } else { from.join("; ") };
        vec![format!("needed\t{} for {verb}", rights.needed), format!("there\t{} {from}", rights.there())]
    }

    fn json(&self, start: usize) -> Value {
        let number = |check: &Answer| check.number();
        json!({
            "record": hex::write(&self.record),
            "words": words::record(&self.record),
            "clock": self.clock,
            "answer": words::answer_json(self.response.answer),
            "passed": passed(self.response.answer).iter().map(number).collect::<Vec<_>>(),
            "sender": self.sender,
            "notes": self.notes,
            "faults": show::faults_json(start, &self.faults),
            "rights": self.rights.as_ref().map(rights_json),
        })
    }
}

fn yes(fits: bool) -> &'static str {
    if fits {
        "yes"
    } else {
        "no"
    }
}

fn row_line(fit: &Fit) -> String {
    let Fit { row, subject, resource, season, share, .. } = fit;
    let on = words::resources(row, " ");
    let on = if on.is_empty() { "nothing" } else { &on };
    format!(
        "{}\t{share}\t{}\t{}\t{}\t{} has {} on {on}, {}",
        row.number,
        yes(*subject),
        yes(*resource),
        yes(*season),
        words::named_subject(row.subject),
        row.permission,
        times::period(row.period)
    )
}

/// Which checks the record passed, which one it failed, and which were not made.
fn checks(answer: Answer) -> String {
    let before = passed(answer);
    let after = Answer::CHECKS.get(before.len() + 1..).unwrap_or_default();
    let mut parts = Vec::new();
    if !before.is_empty() {
        parts.push(format!("{} passed", spans(before)));
    }
    if before.len() < Answer::CHECKS.len() {
        parts.push(format!("{} refuses", answer.number()));
    }
    if !after.is_empty() {
        parts.push(format!("{} not made", spans(after)));
    }
    parts.join("; ")
}

/// Numbers with those that follow each other drawn together.
fn spans(checks: &[Answer]) -> String {
    let mut spans: Vec<(u8, u8)> = Vec::new();
    for number in checks.iter().map(|check| check.number()) {
        match spans.last_mut() {
            Some((_, last)) if *last + 1 == number => *last = number,
            _ => spans.push((number, number)),
        }
    }
    let words = spans.iter().map(|(first, last)| match last - first {
        0 => first.to_string(),
        1 => format!("{first}, {last}"),
        _ => format!("{first} to {last}"),
    });
    words.collect::<Vec<_>>().join(", ")
}

fn rights_json(rights: &Rights) -> Value {
    let row = |fit: &Fit| {
        json!({
            "row": words::ace_json(&fit.row),
            "subject": fit.subject,
            "resource": fit.resource,
            "season": fit.season,
            "share": words::permission_json(fit.share),
        })
    };
    json!({
        "needed": words::permission_json(rights.needed),
        "there": words::permission_json(rights.there()),
        "sources": rights.sources.iter().map(|source| json!({
            "why": source.why,
            "share": words::permission_json(source.share),
        })).collect::<Vec<_>>(),
        "rows": rights.rows.iter().map(row).collect::<Vec<_>>(),
    })
}

#[cfg(test)]
mod tests {
    use super::*;

    #[test]
    fn checks_in_words() {
        assert_eq!(checks(Answer::PERMITTED), "1 to 7, 16, 8 to 14, 22, 15 passed");
        assert_eq!(checks(Answer::NOT_SOUND), "1 refuses; 2 to 7, 16, 8 to 14, 22, 15 not made");
        assert_eq!(checks(Answer::NOT_PERMITTED), "1 to 7, 16 passed; 8 refuses; 9 to 14, 22, 15 not made");
        assert_eq!(checks(Answer::NO_ROOM), "1 to 7, 16, 8 to 14, 22 passed; 15 refuses");
    }
}
