//! Whether senders are isolated from all others: the premise of "The others
//! alone" as a question about the tables, and what may end it.

use crate::directory::{find, Kind};
use crate::provisioning::alters_security;
use crate::record::{Action, Header, Verb, HEADER_SIZE};
use crate::tables::{Access, Connection, Subject, TableBytes, Tables, Uuid, RESET};

/// A partner by its credential number; None is an unauthenticated sender.
pub type Sender = Option<u16>;

/// Bytes of an entry in a list of senders: a credential number, 0 for the
/// unauthenticated.
pub const ENTRY: usize = 2;

/// Why the senders of a list may not be isolated; the value is its number.
#[derive(Clone, Copy, Debug, PartialEq, Eq)]
pub enum Reason {
    OddLength = 1,
    NotSound = 2,
    NoOwner = 3,
    NamesOwner = 4,
    MayAlter = 5,
}

/// The answer to the question.
#[derive(Clone, Copy, Debug, PartialEq, Eq)]
pub struct Isolation {
    /// 0 when all are isolated, else the number of the first reason.
    pub reason: u8,
    /// The entry that it is about, counted from 1; 0 when there is none.
    pub entry: usize,
    /// The access row that it is about, counted from 1; 0 when there is none.
    pub row: usize,
}

/// Asks whether the senders of a list are isolated in these tables.
pub fn ask(tables: &TableBytes, senders: &[u8]) -> Isolation {
    match check(tables, senders) {
        Ok(()) => Isolation { reason: 0, entry: 0, row: 0 },
        Err((reason, entry, row)) => Isolation { reason: reason as u8, entry, row },
    }
}

fn check(tables: &TableBytes, senders: &[u8]) -> Result<(), (Reason, usize, usize)> {
    if !senders.chunks_exact(ENTRY).remainder().is_empty() {
        return Err((Reason::OddLength, 0, 0));
    }
    let tables = Tables::read(tables).map_err(|_| (Reason::NotSound, 0, 0))?;
    if !senders.is_empty() && !tables.owned() {
        return Err((Reason::NoOwner, 0, 0));
    }
    for (entry, sender) in (1..).zip(entries(senders)) {
        let subject = subject_of(&tables, sender);
        if subject.is_some_and(|subject| is_owner(&tables, subject)) {
            return Err((Reason::NamesOwner, entry, 0));
        }
        let altering = |row: &Access| may_fit(row, sender, subject) && alters_security(row);
        if let Some(before) = tables.accesses.iter().position(altering) {
            return Err((Reason::MayAlter, entry, before + 1));
        }
    }
    Ok(())
}

/// The senders of a list; a lone last byte is left out.
pub fn entries(senders: &[u8]) -> impl Iterator<Item = Sender> + '_ {
    senders.chunks_exact(ENTRY).map(|entry| match u16::from_be_bytes([entry[0], entry[1]]) {
        0 => None,
        number => Some(number),
    })
}

/// Whether the list has this sender.
pub fn lists(senders: &[u8], sender: Sender) -> bool {
    entries(senders).any(|entry| entry == sender)
}

/// The list of these senders.
pub fn list_of(senders: &[Sender]) -> Vec<u8> {
    senders.iter().flat_map(|sender| sender.unwrap_or(0).to_be_bytes()).collect()
}

/// The sender of a record; a short record is an unauthenticated sender's.
pub fn sender_of(record: &[u8]) -> Sender {
    if record.len() < HEADER_SIZE {
        return None;
    }
    let header = Header::read(record);
    (header.connection == Connection::AuthCrypt).then_some(header.credential)
}

/// The subject of the sender's credential row, if it has one.
fn subject_of(tables: &Tables, sender: Sender) -> Option<Uuid> {
    tables.credential(sender?).map(|row| row.subject)
}

/// The device owner, or the owner of any security resource's row.
fn is_owner(tables: &Tables, subject: Uuid) -> bool {
    tables.device_owner == Some(subject) || tables.row_owners.contains(&Some(subject))
}

/// Whether the row may be for this sender one day: every role counts as a
/// partner's.
fn may_fit(row: &Access, sender: Sender, subject: Option<Uuid>) -> bool {
    match row.subject {
        Subject::Uuid(uuid) => subject == Some(uuid),
        Subject::Role(_) => sender.is_some(),
        Subject::Connection(Connection::AuthCrypt) => sender.is_some(),
        Subject::Connection(Connection::AnonClear) => sender.is_none(),
    }
}

/// Whether the record, if it is permitted, may end the isolation of a list: it
/// sets an owner, clears the terminal, stores a credential row of a listed
/// partner, or an access row that lets somebody alter a security resource.
pub fn endangers(record: &[u8], senders: &[u8]) -> bool {
    if record.len() < HEADER_SIZE {
        return false;
    }
    let (header, body) = (Header::read(record), &record[HEADER_SIZE..]);
    let which = find(header.resource).map(|resource| resource.kind);
    let (Some(Kind::Security(which)), Some(verb)) = (which, Verb::from_number(header.verb)) else {
        return false;
    };
    match Action::read(which, verb, body) {
        Some(Action::SetRowOwner(_) | Action::SetDeviceOwner(_)) => true,
        Some(Action::Target(target)) => target == RESET,
        Some(Action::StoreCredential(row)) => lists(senders, Some(row.number)),
        Some(Action::StoreAccess(row)) => alters_security(&row),
        _ => false,
    }
}

#[cfg(test)]
#[path = "tests/isolation.rs"]
mod tests;
