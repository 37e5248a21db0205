//! `why --without` and `--with`: what would change if a row were not there, or if
//! records had been judged before. The library judges on a copy.

use serde_json::{json, Value};
use tillerclover::{Ace, Resource, Response, Terminal};

use crate::diff::{changes, Change};
use crate::matrix::{cells, matrix, Cell, Line};
use crate::report::{Report, Status};
use crate::senders::Sender;
use crate::{colour, words};

/// What is to be different.
#[derive(Clone, Debug, Default, PartialEq, Eq)]
pub struct Plan {
    /// The numbers of access rows that are not to be there.
    pub without: Vec<u16>,
    /// Records that are to be judged before.
    pub with: Vec<Vec<u8>>,
}

/// A right that would be another one.
#[derive(Clone, Debug, PartialEq, Eq)]
pub struct Shift {
    /// Whose.
    pub sender: Sender,
    /// On what.
    pub resource: Resource,
    /// As cells of the table of rights.
    pub cells: [String; 2],
}

impl Plan {
    /// Whether nothing is to be different.
    pub fn is_empty(&self) -> bool {
        self.without.is_empty() && self.with.is_empty()
    }

    /// The terminal as planned, or what keeps it from being so.
    pub fn carry_out(&self, terminal: &Terminal, clock: u32) -> Result<Terminal, String> {
        let mut planned = terminal.clone();
        for number in &self.without {
            let rows = planned.tables.aces();
            let rest: Vec<Ace> = rows.iter().copied().filter(|row| row.number != *number).collect();
            if rest.len() == rows.len() {
                let numbers: Vec<String> = rows.iter().map(|row| row.number.to_string()).collect();
                return Err(format!("there is no access row {number}, but {}", numbers.join(", ")));
            }
            planned.tables.set_aces(&rest);
        }
        for record in &self.with {
            let answer = planned.judge(clock, record).answer;
            if !answer.is_permitted() {
                return Err(format!("{} is refused itself, {}: {answer}", words::record(record), answer.number()));
            }
        }
        Ok(planned)
    }

    fn words(&self) -> String {
        let without = self.without.iter().map(|number| format!("without access row {number}"));
        let with = self.with.iter().map(|record| format!("with {}", words::record(record)));
        without.chain(with).collect::<Vec<_>>().join(", ")
    }
}

/// The rights that differ between two sound terminals.
pub fn shifts(before: &Terminal, after: &Terminal, clock: u32) -> Vec<Shift> {
    let lines = [before, after].map(|terminal| matrix(terminal, clock));
    let known = |sender: Sender| lines[0].iter().any(|line| same(line.sender, sender));
    let new = lines[1].iter().filter(|line| !known(line.sender));
    let senders: Vec<Sender> = lines[0].iter().chain(new).map(|line| line.sender).collect();
    let mut shifts = Vec::new();
    for sender in senders {
        let cells =
            [(&lines[0], before), (&lines[1], after)].map(|(lines, terminal)| texts(lines, sender, terminal, clock));
        for (place, resource) in Resource::ALL.iter().enumerate() {
            let pair = [&cells[0], &cells[1]].map(|cells| cells[place].clone());
            if pair[0] != pair[1] {
                shifts.push(Shift { sender, resource: *resource, cells: pair });
            }
        }
    }
    shifts
}

/// The cells of a sender. A credential that is not there has none; a role can be asserted where no row is for it.
fn texts(lines: &[Line], sender: Sender, terminal: &Terminal, clock: u32) -> Vec<String> {
    let found = lines.iter().find(|line| same(line.sender, sender)).map(|line| line.cells.clone());
    let asserting = matches!(sender, Sender::Asserting(_));
    let cells = found.or_else(|| asserting.then(|| cells(sender, terminal, clock)));
    cells.map_or(vec!["-".into(); Resource::ALL.len()], |cells| cells.iter().map(Cell::text).collect())
}

/// Whether it is the same one, perhaps with other roles.
fn same(one: Sender, other: Sender) -> bool {
    match (one, other) {
        (Sender::Credential(one), Sender::Credential(other)) => one.number == other.number,
        _ => one == other,
    }
}

/// What the plan changes for a record, for the tables and for all senders, after the explanation of the record.
pub fn report(explained: Report, terminal: &Terminal, clock: u32, record: &[u8], plan: &Plan) -> Report {
    let planned = match plan.carry_out(terminal, clock) {
        Ok(planned) => planned,
        Err(reason) => {
            let text = format!("{}\n{}: {reason}\n", explained.text, plan.words());
            let json = with_plan(explained.json, json!({ "plan": plan.words(), "impossible": reason }));
            return Report::new(text, json, Status::No);
        }
    };
    let responses = [terminal, &planned].map(|terminal| terminal.ask(clock, record));
    let sound = terminal.is_sound() && planned.is_sound();
    let shifts = if sound { shifts(terminal, &planned, clock) } else { Vec::new() };
    let changes = changes(terminal, &planned);
    let [before, after] = responses.each_ref().map(outcome);
    let mut text = format!("{}\n{}\n", explained.text, colour::paint(colour::Tone::Head, &plan.words()));
    text += &match before == after {
        true => format!("  the record is {after}, as it is now\n"),
        false => format!("  the record: {before} -> {after}\n"),
    };
    text += &changes.iter().map(|change| format!("  {}\n", change.text())).collect::<String>();
    text += &shifts.iter().map(Shift::text).collect::<String>();
    if shifts.is_empty() {
        text += "  no sender's rights change\n";
    }
    let json = json!({
        "plan": plan.words(),
        "answer": words::answer_json(responses[1].answer),
        "permission": words::permission_json(responses[1].permission),
        "changes": changes.iter().map(Change::json).collect::<Vec<_>>(),
        "rights": shifts.iter().map(Shift::json).collect::<Vec<_>>(),
    });
    Report::new(text, with_plan(explained.json, json), Status::of(responses[1].answer.is_permitted()))
}

fn with_plan(mut explained: Value, planned: Value) -> Value {
    explained["planned"] = planned;
    explained
}

fn outcome(response: &Response) -> String {
    let Response { answer, permission, .. } = response;
    if answer.is_permitted() {
        format!("permitted {permission}")
    } else {
        format!("refused, {} {answer}", answer.number())
    }
}

impl Shift {
    fn text(&self) -> String {
        let [before, after] = &self.cells;
        format!("  {} on {}: {before} -> {after}\n", self.sender.words(), self.resource)
    }

    fn json(&self) -> Value {
        let [before, after] = &self.cells;
        json!({
            "sender": self.sender.json(),
            "resource": self.resource.to_string(),
            "from": before,
            "to": after,
        })
    }
}
