//! `rights`: what each sender may do with each resource, as a table of letters.
//! Each cell is asked of the library.

use std::path::Path;

use serde_json::{json, Map, Value};
use tillerclover::{Ace, Answer, Header, Permission, Resource, Tables, Terminal, Verb};

use crate::error::name;
use crate::report::{table, Report, Status};
use crate::rights::{held, Probe};
use crate::senders::Sender;
use crate::stored::Stored;
use crate::{show, times, words};

/// What a sender may do with a resource.
#[derive(Clone, Copy, Debug, PartialEq, Eq)]
pub struct Cell {
    /// Whether the resource is served over the sender's connection.
    pub served: bool,
    /// What it may do now.
    pub now: Permission,
    /// What it might do in addition, if the season of a row were not over.
    pub over: Permission,
    /// What it may do in addition to that now, once the season of a row begins; it may have been given before.
    pub to_come: Permission,
}

/// A sender with its cells, one for each resource.
#[derive(Clone, Debug, PartialEq, Eq)]
pub struct Line {
    /// Who.
    pub sender: Sender,
    /// In the order of `Resource::ALL`.
    pub cells: Vec<Cell>,
}

/// The cells of all senders, of a sound terminal at this clock.
pub fn matrix(terminal: &Terminal, clock: u32) -> Vec<Line> {
    let senders = Sender::all(&terminal.tables).into_iter().chain(Sender::asserting(&terminal.tables));
    senders.map(|sender| Line { sender, cells: cells(sender, terminal, clock) }).collect()
}

/// The cells of one sender, who need not be one of the terminal's.
pub fn cells(sender: Sender, terminal: &Terminal, clock: u32) -> Vec<Cell> {
    let (terminal, number) = sender.at(terminal);
    let cell = |resource: &Resource| {
        let header = sender.header(number, Verb::RETRIEVE, *resource);
        let answer = terminal.ask(clock, &header.to_bytes()).answer;
        if answer == Answer::NO_ENDPOINT {
            return Cell::NOT_SERVED;
        }
        let now = held(&terminal.tables, clock, header);
        let [over, to_come] = out_of_season(&terminal.tables, clock, header).map(|letters| letters.without(now));
        Cell { served: true, now, over, to_come }
    };
    Resource::ALL.iter().map(cell).collect()
}

/// What rows give that fitted in their last second, which is past, and that will fit in their first.
fn out_of_season(tables: &Tables, clock: u32, header: Header) -> [Permission; 2] {
    let fits = |row: &Ace, second: u32| Probe::new(tables, second, header).fits(*row);
    let rows = tables.aces();
    let over = rows.iter().filter(|row| row.period.last < clock && fits(row, row.period.last));
    let to_come = rows.iter().filter(|row| row.period.first > clock && fits(row, row.period.first));
    [over.collect(), to_come.collect::<Vec<&Ace>>()]
        .map(|rows: Vec<&Ace>| rows.iter().fold(Permission::NONE, |union, row| union | row.permission))
}

impl Cell {
    const NOT_SERVED: Cell =
        Cell { served: false, now: Permission::NONE, over: Permission::NONE, to_come: Permission::NONE };

    /// Capital letters for what may be done now; small ones before `<` where a season is over, before `>` where it is to
    /// come; `x` where the resource is not served.
    pub fn text(&self) -> String {
        if !self.served {
            return "x".into();
        }
        let letters = |permission: Permission| permission.to_string().replace('-', "");
        let mut text = letters(self.now);
        for (permission, sign) in [(self.over, '<'), (self.to_come, '>')] {
            if !permission.is_empty() {
                text += &format!("{}{sign}", letters(permission).to_lowercase());
            }
        }
        if text.is_empty() {
            "-".into()
        } else {
            text
        }
    }

    fn json(&self) -> Value {
        json!({
            "served": self.served,
            "now": words::permission_json(self.now),
            "over": words::permission_json(self.over),
            "to_come": words::permission_json(self.to_come),
        })
    }
}

/// The last part of a resource's name, for the head of a column.
pub fn short_name(resource: Resource) -> String {
    let name = resource.to_string();
    name.rsplit('/').next().unwrap_or_default().into()
}

const LEGEND: &str = "\
C create, R retrieve and observe, U update, D delete, N notify; - nothing; x not served over this connection
u<  the season of a row that gives it is over;  u>  is to come
Rights alone: in another device state than RFNOP, or for its body, a record may be refused all the same.
";

/// The matrix as a report.
pub fn report(path: &Path, stored: &Stored, clock: u32) -> Report {
    let (terminal, state) = (&stored.terminal, words::state(stored.terminal.tables.state()));
    if let Some(report) = show::unless_sound(path, stored) {
        return report;
    }
    let lines = matrix(terminal, clock);
    let names: Vec<String> = Resource::ALL.iter().map(|resource| short_name(*resource)).collect();
    let row = |line: &Line| {
        let cells: Vec<String> = line.cells.iter().map(Cell::text).collect();
        format!("{}\t{}", line.sender.columns(), cells.join("\t"))
    };
    let rows: Vec<String> = lines.iter().map(row).collect();
    let table = table(&format!("sender\tsubject\t{}", names.join("\t")), &rows);
    let head = format!("{} at {}, state {state}", name(path), times::word(clock));
    let text = format!("{head}\n\n{table}\n{LEGEND}");
    let json = json!({
        "file": path.display().to_string(),
        "clock": clock,
        "state": terminal.tables.state().name(),
        "senders": lines.iter().map(line_json).collect::<Vec<_>>(),
    });
    Report::new(text, json, Status::Yes)
}

fn line_json(line: &Line) -> Value {
    let cells = Resource::ALL.iter().zip(&line.cells).map(|(resource, cell)| (resource.to_string(), cell.json()));
    json!({ "sender": line.sender.json(), "resources": cells.collect::<Map<_, _>>() })
}
