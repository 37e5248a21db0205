//! `show`: tables in words and as rows, and why they are not sound.

use std::path::Path;

use serde_json::{json, Value};
use tillerclover::{Ace, Cred, Resource, Tables, Terminal, Uuid, Waiting};

use crate::colour::{paint, Tone};
use crate::error::name;
use crate::marks::{self, Mark};
use crate::report::{self, columns, Report, Status};
use crate::soundness::{findings, Finding};
use crate::stored::Stored;
use crate::times::Zone;
use crate::{names, service, words};

/// What is in a file of tables; seasons are marked as of the clock.
pub fn show(path: &Path, stored: &Stored, clock: u32) -> Report {
    let found = findings(&stored.terminal);
    let marks = marks::all(&stored.terminal, clock);
    let well = found.is_empty() && stored.damage.is_none();
    let text = text(path, stored, &found) + &tables(&stored.terminal, &marks);
    let mut json = json(path, stored, &found, &marks);
    json["clock"] = json!(clock);
    Report::new(text, json, Status::of(well))
}

/// For commands that have nothing to say of tables that are not sound: why they are not.
pub fn unless_sound(path: &Path, stored: &Stored) -> Option<Report> {
    let found = findings(&stored.terminal);
    let json = json!({
        "file": path.display().to_string(),
        "sound": false,
        "faults": faults_json(stored.start(), &found),
    });
    (!found.is_empty()).then(|| Report::new(text(path, stored, &found), json, Status::No))
}

fn text(path: &Path, stored: &Stored, found: &[Finding]) -> String {
    let Stored { damage, .. } = stored;
    let mut text = String::new();
    if let Some(damage) = damage {
        text += &format!("{}: {damage}\n", name(path));
    }
    if found.is_empty() {
        text += &format!("{}: {}\n", name(path), paint(Tone::Good, "sound"));
    } else {
        let unsound = paint(Tone::Bad, "NOT SOUND");
        text += &format!("{}: {unsound}, every record gets 1 until the terminal is cleared\n", name(path));
        for Finding { place, byte, what } in found {
            text += &format!("  {place}, at byte {}: {what}\n", stored.start() + byte);
        }
    }
    text
}

fn tables(terminal: &Terminal, marks: &[Vec<Mark>]) -> String {
    let Terminal { tables, .. } = terminal;
    format!("\n{}{}{}{}", columns(&head(terminal)), creds(tables), aces(tables, marks), waiting(terminal))
}

fn head(terminal: &Terminal) -> Vec<String> {
    let tables = &terminal.tables;
    let owners: Vec<(Resource, Uuid)> = row_owners(tables).filter(|(_, owner)| !owner.is_nil()).collect();
    let mut lines = vec![
        format!("state\t{}", words::state(tables.state())),
        format!("owner\t{}", words::named_uuid(tables.owner())),
    ];
    lines.extend(
        owners.iter().map(|(resource, owner)| format!("row owner\t{} of {resource}", words::named_uuid(*owner))),
    );
    if owners.is_empty() {
        lines.push("row owners\tnone".into());
    }
    if service::locked_out(terminal) {
        lines.push(format!("note\t{}", paint(Tone::Bad, service::LOCKED_OUT)));
    }
    lines
}

fn row_owners(tables: &Tables) -> impl Iterator<Item = (Resource, Uuid)> + '_ {
    Resource::WITH_ROW_OWNER.into_iter().filter_map(|resource| Some((resource, tables.row_owner(resource)?)))
}

/// A headline, and rows below it where there are any.
fn table(title: String, head: &str, rows: Vec<String>) -> String {
    if rows.is_empty() {
        return format!("\n{}\n", paint(Tone::Head, &title));
    }
    format!("\n{}\n{}", paint(Tone::Head, &title), report::table(head, &rows))
}

fn creds(tables: &Tables) -> String {
    let row = |row: &Cred| {
        let (role, asserted) = (words::named_role(row.role), words::asserted(&row.asserted));
        let subject = names::beside(row.subject.to_string(), names::of_number(row.number));
        format!("{}\t{subject}\t{role}\t{}\t{asserted}", row.number, row.kind)
    };
    let title = format!("Credentials, {} of {}", tables.ncreds, Cred::CAPACITY);
    let head = format!("number\tsubject\trole\ttype\tasserted roles ({})", Zone::chosen().name());
    table(title, &head, tables.creds().iter().map(row).collect())
}

fn aces(tables: &Tables, marks: &[Vec<Mark>]) -> String {
    let title = format!("Access control entries, {} of {}", tables.naces, Ace::CAPACITY);
    let row = |(row, marks): (&Ace, &Vec<Mark>)| {
        format!("{}\t{}", words::ace_columns(row), paint(Tone::Mark, &in_words(marks).join("; ")))
    };
    table(title, &words::ace_head(), tables.aces().iter().zip(marks).map(row).collect())
}

fn in_words(marks: &[Mark]) -> Vec<String> {
    marks.iter().map(|mark| mark.words()).collect()
}

fn waiting(terminal: &Terminal) -> String {
    let Terminal { waiting, .. } = terminal;
    let round = words::round(waiting.last_taken());
    let title = format!("Waiting, {} of {}; the round {round}", waiting.count(), Waiting::CAPACITY);
    table(title, "record", waiting.slots().iter().map(|slot| words::named_record(&slot.record)).collect())
}

fn json(path: &Path, stored: &Stored, found: &[Finding], marks: &[Vec<Mark>]) -> Value {
    let Stored { form, terminal, damage, .. } = stored;
    let tables = &terminal.tables;
    let owners = row_owners(tables).map(|(resource, owner)| (resource.to_string(), json!(owner.to_string()))).collect();
    let marked = |(row, marks): (&Ace, &Vec<Mark>)| {
        let mut json = words::ace_json(row);
        json["marks"] = json!(in_words(marks));
        json
    };
    let aces: Vec<Value> = tables.aces().iter().zip(marks).map(marked).collect();
    json!({
        "file": path.display().to_string(),
        "form": form.name(),
        "damage": damage,
        "sound": found.is_empty(),
        "faults": faults_json(stored.start(), found),
        "state": { "number": tables.state, "name": tables.state().name() },
        "owned": tables.owned,
        "owner": tables.owner().to_string(),
        "locked_out": service::locked_out(terminal),
        "row_owners": Value::Object(owners),
        "credentials": tables.creds().iter().map(words::cred_json).collect::<Vec<_>>(),
        "access_control_entries": aces,
        "waiting": terminal.waiting.slots().iter().map(words::slot_json).collect::<Vec<_>>(),
        "last_taken": terminal.waiting.last_taken(),
    })
}

/// Faults for programs; the tables begin at `start` in the file.
pub fn faults_json(start: usize, found: &[Finding]) -> Value {
    let one = |finding: &Finding| json!({ "place": finding.place, "byte": start + finding.byte, "what": finding.what });
    found.iter().map(one).collect()
}
