//! Who may send records to a terminal: anybody in clear, each credential row, and
//! whoever asserts a role that an access row is for.

use serde_json::{json, Value};
use tillerclover::{Asserted, Connection, Cred, Header, Resource, Role, Subject, Tables, Terminal, Uuid, Verb, ANYONE};

use crate::{names, words};

/// Somebody who may send records.
#[derive(Clone, Copy, Debug, PartialEq, Eq)]
pub enum Sender {
    /// Over anon-clear.
    Clear,
    /// With this credential row.
    Credential(Cred),
    /// With any credential row, which has no right of its own, while it asserts this role.
    Asserting(Role),
}

impl Sender {
    /// Anybody in clear, and each credential row.
    pub fn all(tables: &Tables) -> Vec<Sender> {
        let mut senders = vec![Sender::Clear];
        senders.extend(tables.creds().into_iter().map(Sender::Credential));
        senders
    }

    /// Those who assert a role that an access row is for. Without a credential nobody can.
    pub fn asserting(tables: &Tables) -> Vec<Sender> {
        let roles = if tables.ncreds > 0 { roles(tables) } else { Vec::new() };
        roles.into_iter().map(Sender::Asserting).collect()
    }

    /// The terminal on which the sender is asked about, and its credential number there.
    pub fn at(self, terminal: &Terminal) -> (Terminal, u16) {
        let mut terminal = terminal.clone();
        let number = match self {
            Sender::Clear => ANYONE,
            Sender::Credential(row) => row.number,
            Sender::Asserting(role) => {
                let asserted = [Asserted { role, last: u32::MAX }, Asserted::default()];
                let row = Cred { number: 1, subject: stranger(&terminal.tables), asserted, ..Cred::default() };
                terminal.tables.set_creds(&[row]);
                terminal.waiting = Default::default();
                row.number
            }
        };
        (terminal, number)
    }

    /// Over which connection it sends.
    pub fn connection(self) -> Connection {
        match self {
            Sender::Clear => Connection::ANON_CLEAR,
            _ => Connection::AUTH_CRYPT,
        }
    }

    /// The header of its records.
    pub fn header(self, number: u16, verb: Verb, resource: Resource) -> Header {
        Header { verb, connection: self.connection(), resource, zeros: 0, sender: number }
    }

    /// Its number and its subject, between tabs.
    pub fn columns(self) -> String {
        match self {
            Sender::Clear => "clear\tanybody".into(),
            Sender::Credential(row) => {
                format!("{}\t{}", row.number, names::beside(row.subject.to_string(), names::of_number(row.number)))
            }
            Sender::Asserting(role) => format!("any\twhoever asserts role {}", words::named_role(role)),
        }
    }

    /// The same for programs.
    pub fn json(self) -> Value {
        match self {
            Sender::Clear => json!({ "kind": "clear" }),
            Sender::Credential(row) => credential_json(row.number, Some(row.subject)),
            Sender::Asserting(role) => {
                json!({ "kind": "asserting", "role": role.number, "authority": role.authority })
            }
        }
    }

    /// In words.
    pub fn words(self) -> String {
        match self {
            Sender::Clear => words::sender(ANYONE),
            Sender::Credential(row) => format!("{} of {}", words::named_sender(row.number), row.subject),
            Sender::Asserting(role) => format!("any credential that asserts role {}", words::named_role(role)),
        }
    }
}

/// A partner for programs, with its name where there is one.
pub fn credential_json(number: u16, subject: Option<Uuid>) -> Value {
    let mut json = json!({ "kind": "credential", "number": number });
    if let Some(subject) = subject {
        json["subject"] = json!(subject.to_string());
    }
    if let Some(name) = names::of_number(number) {
        json["name"] = json!(name);
    }
    json
}

/// The roles that access rows are for, each once.
pub fn roles(tables: &Tables) -> Vec<Role> {
    let mut roles = Vec::new();
    for row in tables.aces() {
        match row.subject {
            Subject::Role(role) if !roles.contains(&role) => roles.push(role),
            _ => {}
        }
    }
    roles
}

/// A UUID that the tables do not name.
fn stranger(tables: &Tables) -> Uuid {
    let mut known: Vec<Uuid> = tables.creds().iter().map(|row| row.subject).collect();
    known.push(tables.owner());
    known.extend(Resource::WITH_ROW_OWNER.into_iter().filter_map(|resource| tables.row_owner(resource)));
    known.extend(tables.aces().iter().filter_map(|row| match row.subject {
        Subject::Uuid(uuid) => Some(uuid),
        _ => None,
    }));
    (1..=u8::MAX).map(|byte| Uuid([byte; 16])).find(|uuid| !known.contains(uuid)).unwrap_or_default()
}
