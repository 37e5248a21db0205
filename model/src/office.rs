//! The access list as office text: OCF's own JSON for the yard office, written
//! to the front of the caller's buffer.

use crate::directory::DIRECTORY;
use crate::queue::{Queue, QueueBytes};
use crate::tables::{Access, Connection, Period, Role, Subject, TableBytes, Tables, Uuid, Wildcards};

/// Why there is no text; the value is its number.
#[derive(Clone, Copy, Debug, PartialEq, Eq)]
pub enum Refusal {
    NotSound = 17,
    NoRoom = 18,
}

/// The longest text: a full table of the longest rows.
pub const TEXT_MAX: usize = 13_069;

/// Writes the access list to the front of the buffer and returns the length of
/// the text. All other bytes keep their contents.
pub fn write(stored: &TableBytes, queue_bytes: &QueueBytes, buffer: &mut [u8]) -> Result<usize, Refusal> {
    // 17
    let tables = Tables::read(stored).map_err(|_| Refusal::NotSound)?;
    Queue::read(queue_bytes, &tables).map_err(|_| Refusal::NotSound)?;
    let text = text(&tables.accesses);
    // 18
    let front = buffer.get_mut(..text.len()).ok_or(Refusal::NoRoom)?;
    front.copy_from_slice(text.as_bytes());
    Ok(text.len())
}

/// The text of these rows, in their order. The office's form has no period, so
/// rows that do not hold for every second are left out.
pub fn text(rows: &[Access]) -> String {
    let rows: Vec<String> = rows.iter().filter(|row| row.period == Period::ALWAYS).map(row).collect();
    format!(r#"{{"aclist2":[{}]}}"#, rows.join(","))
}

fn row(row: &Access) -> String {
    format!(
        r#"{{"aceid":{},"subject":{},"resources":[{}],"permission":{}}}"#,
        row.number,
        subject(row.subject),
        resources(row),
        row.permission
    )
}

fn subject(subject: Subject) -> String {
    match subject {
        Subject::Uuid(uuid) => pair("uuid", &uuid_text(uuid)),
        Subject::Role(Role { authority, number }) => format!(r#"{{"authority":"{authority}","role":"{number}"}}"#),
        Subject::Connection(Connection::AnonClear) => pair("conntype", "anon-clear"),
        Subject::Connection(Connection::AuthCrypt) => pair("conntype", "auth-crypt"),
    }
}

/// The set by rising number, as in the directory, then the wildcards.
fn resources(row: &Access) -> String {
    let named = DIRECTORY.iter().filter(|resource| row.set & resource.bit() != 0);
    let mut items: Vec<String> = named.map(|resource| pair("href", resource.name)).collect();
    let Wildcards { plus, minus, star } = row.wildcards;
    for (held, sign) in [(plus, "+"), (minus, "-"), (star, "*")] {
        if held {
            items.push(pair("wc", sign));
        }
    }
    items.join(",")
}

/// An object with one member, a string. No value has a letter to escape.
fn pair(name: &str, value: &str) -> String {
    format!(r#"{{"{name}":"{value}"}}"#)
}

/// Lower case, in the 8-4-4-4-12 form.
fn uuid_text(uuid: Uuid) -> String {
    let digits = format!("{uuid:032x}");
    [0..8, 8..12, 12..16, 16..20, 20..32].map(|part| &digits[part]).join("-")
}

#[cfg(test)]
#[path = "tests/office.rs"]
mod tests;
