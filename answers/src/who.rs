//! `who`: everybody who may do something with a resource, by which row or right,
//! and who could by asserting a role. Each answer is asked of the library.

use std::path::Path;

use serde_json::{json, Value};
use tillerclover::{Answer, Asserted, Body, Cred, Permission, Resource, Role, State, Terminal, Verb};

use crate::error::name;
use crate::report::{columns, Report, Status};
use crate::rights::{rights, Rights};
use crate::senders::{roles, Sender};
use crate::stored::Stored;
use crate::{show, times, words};

/// What is asked.
#[derive(Clone, Copy, Debug, PartialEq, Eq)]
pub struct Question {
    /// What is to be done.
    pub verb: Verb,
    /// With what.
    pub resource: Resource,
    /// When.
    pub clock: u32,
}

/// Somebody who may, and by what.
#[derive(Clone, Debug, PartialEq, Eq)]
pub struct Holder {
    /// Who.
    pub sender: Sender,
    /// Rights that are no rows, in words.
    pub sources: Vec<String>,
    /// The numbers of the rows that give what is needed.
    pub rows: Vec<u16>,
}

/// Somebody who could, and by which role.
#[derive(Clone, Debug, PartialEq, Eq)]
pub struct Candidate {
    /// Who.
    pub sender: Sender,
    /// The role to assert.
    pub role: Role,
    /// The rows that then give it.
    pub rows: Vec<u16>,
    /// Whether two other roles must be over before.
    pub full: bool,
}

/// Who may, who could, and who may not.
#[derive(Clone, Debug, PartialEq, Eq)]
pub struct Answers {
    /// What the verb needs.
    pub needed: Permission,
    /// Those who have it.
    pub may: Vec<Holder>,
    /// Those who could by asserting a role.
    pub could: Vec<Candidate>,
    /// The others.
    pub may_not: Vec<Sender>,
    /// What the checks after the permission say to those who have it: 9 and 11 refuse all of them.
    pub refusal: Option<Answer>,
}

impl Question {
    /// What the library says to a record of the sender with only a header.
    fn answer(self, terminal: &Terminal, sender: Sender, number: u16) -> Answer {
        let header = sender.header(number, self.verb, self.resource);
        terminal.ask(self.clock, &header.to_bytes()).answer
    }

    /// Whether the checks up to the permission let the sender pass.
    fn passes(self, terminal: &Terminal, sender: Sender, number: u16) -> bool {
        let answer = self.answer(terminal, sender, number);
        let place = |one: Answer| Answer::CHECKS.iter().position(|&check| check == one);
        place(answer).is_none() || place(answer) > place(Answer::NOT_PERMITTED)
    }

    fn rights(self, terminal: &Terminal, sender: Sender, number: u16) -> Rights {
        rights(&terminal.tables, self.clock, sender.header(number, self.verb, self.resource))
    }

    /// Asks about all senders of a sound terminal.
    pub fn ask(self, terminal: &Terminal) -> Answers {
        let senders = Sender::all(&terminal.tables);
        let numbered = senders.iter().map(|&sender| (sender, sender.at(terminal).1));
        let (may, other): (Vec<_>, Vec<_>) =
            numbered.partition(|&(sender, number)| self.passes(terminal, sender, number));
        let could: Vec<Candidate> = other.iter().flat_map(|&(sender, _)| self.by_roles(terminal, sender)).collect();
        let refusals: Vec<Answer> = may.iter().map(|&(sender, number)| self.answer(terminal, sender, number)).collect();
        let all = |answer: Answer| !refusals.is_empty() && refusals.iter().all(|&one| one == answer);
        Answers {
            needed: self.rights(terminal, Sender::Clear, 0).needed,
            may: may.into_iter().map(|(sender, number)| self.holder(terminal, sender, number)).collect(),
            may_not: other.into_iter().map(|(sender, _)| sender).collect(),
            could,
            refusal: [Answer::NOT_OFFERED, Answer::WRONG_STATE].into_iter().find(|&answer| all(answer)),
        }
    }

    fn holder(self, terminal: &Terminal, sender: Sender, number: u16) -> Holder {
        let rights = self.rights(terminal, sender, number);
        let sources = rights.sources.iter().filter(|source| source.share.contains(rights.needed));
        Holder { sender, sources: sources.map(|source| source.why.clone()).collect(), rows: giving(&rights) }
    }

    /// The roles by which a sender would pass, each asserted by a record that the library judges.
    fn by_roles(self, terminal: &Terminal, sender: Sender) -> Vec<Candidate> {
        let Sender::Credential(row) = sender else { return Vec::new() };
        let mut found: Vec<Candidate> = Vec::new();
        for role in roles(&terminal.tables) {
            let Some((after, full)) = self.asserted(terminal, row, role) else { continue };
            if self.passes(&after, sender, row.number) {
                let rows = giving(&self.rights(&after, sender, row.number));
                found.push(Candidate { sender, role, rows, full });
            }
        }
        found
    }

    /// The terminal after the assertion, and whether others must be over before. None where it is refused.
    fn asserted(self, terminal: &Terminal, row: Cred, role: Role) -> Option<(Terminal, bool)> {
        let body = Body::Role(Asserted { role, last: u32::MAX }).to_bytes();
        let record = tillerclover::record(Verb::UPDATE, Resource::ROLES, row.number, &body);
        // Roles are asserted in normal operation; whether the terminal is there now is reported elsewhere.
        let mut after = terminal.clone();
        after.tables.state = State::RFNOP.number();
        let answer = after.judge(self.clock, &record).answer;
        if answer == Answer::ROLES_FULL {
            let free = |cred: Cred| {
                if cred.number == row.number {
                    Cred { asserted: Default::default(), ..cred }
                } else {
                    cred
                }
            };
            let rows: Vec<Cred> = after.tables.creds().into_iter().map(free).collect();
            after.tables.set_creds(&rows);
            return after.judge(self.clock, &record).answer.is_permitted().then_some((after, true));
        }
        answer.is_permitted().then_some((after, false))
    }

    fn words(self) -> String {
        format!("{} {}", self.verb, self.resource)
    }
}

/// The rows that give what is needed.
fn giving(rights: &Rights) -> Vec<u16> {
    let rows = rights.rows.iter().filter(|fit| fit.share.contains(rights.needed));
    rows.map(|fit| fit.row.number).collect()
}

fn rows_in_words(rows: &[u16]) -> Option<String> {
    let numbers: Vec<String> = rows.iter().map(u16::to_string).collect();
    (!rows.is_empty()).then(|| format!("access row {}", numbers.join(", ")))
}

/// What is to be reported of roles wherever they give a right.
pub const ROLES_ARE_OPEN: &str = "A role row is open to every credential: any holder may assert any role.";

/// The answers as a report: status 0 where somebody may.
pub fn report(path: &Path, stored: &Stored, question: Question) -> Report {
    if let Some(report) = show::unless_sound(path, stored) {
        return report;
    }
    let answers = question.ask(&stored.terminal);
    let status = Status::of(!answers.may.is_empty() && answers.refusal.is_none());
    Report::new(text(path, stored, question, &answers), json(path, stored, question, &answers), status)
}

fn text(path: &Path, stored: &Stored, question: Question, answers: &Answers) -> String {
    let state = stored.terminal.tables.state();
    let at = times::word(question.clock);
    let mut text = format!("{} in {} at {at}: needs {}\n", question.words(), name(path), answers.needed);
    match answers.refusal {
        Some(Answer::NOT_OFFERED) => {
            text += &format!("nobody: {} does not offer {}, 9\n", question.resource, question.verb)
        }
        Some(answer) => {
            text += &format!("nobody while the state is {state}, {}: what follows are rights alone\n", answer.number());
        }
        None => {}
    }
    let may = answers.may.iter().map(|Holder { sender, sources, rows }| {
        let by: Vec<String> = sources.iter().cloned().chain(rows_in_words(rows)).collect();
        format!("  {}\t{}", sender.columns(), by.join("; "))
    });
    let could = answers.could.iter().map(|Candidate { sender, role, rows, full }| {
        let by = rows_in_words(rows).unwrap_or_default();
        let full = if *full { ", once one of the two that it asserts now has expired" } else { "" };
        format!("  {}\trole {role}, {by}{full}", sender.columns())
    });
    text += &part("may, by", may.collect());
    text += &part("could by asserting a role", could.collect());
    if !answers.could.is_empty() {
        text += &format!("  {ROLES_ARE_OPEN}\n");
    }
    text + &part("may not now", answers.may_not.iter().map(|sender| format!("  {}", sender.columns())).collect())
}

fn part(title: &str, lines: Vec<String>) -> String {
    match lines.len() {
        0 => format!("\n{title}: nobody\n"),
        _ => format!("\n{title}\n{}", columns(&lines)),
    }
}

fn json(path: &Path, stored: &Stored, question: Question, answers: &Answers) -> Value {
    let may = answers
        .may
        .iter()
        .map(|Holder { sender, sources, rows }| json!({ "sender": sender.json(), "sources": sources, "rows": rows }));
    let could = answers.could.iter().map(|Candidate { sender, role, rows, full }| {
        json!({
            "sender": sender.json(),
            "role": role.number,
            "authority": role.authority,
            "rows": rows,
            "full": full,
        })
    });
    json!({
        "file": path.display().to_string(),
        "verb": question.verb.to_string(),
        "resource": question.resource.to_string(),
        "clock": question.clock,
        "state": stored.terminal.tables.state().name(),
        "needed": words::permission_json(answers.needed),
        "refusal": answers.refusal.map(words::answer_json),
        "may": may.collect::<Vec<_>>(),
        "could": could.collect::<Vec<_>>(),
        "may_not": answers.may_not.iter().map(|sender| sender.json()).collect::<Vec<_>>(),
    })
}
