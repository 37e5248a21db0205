//! Records, rows and replies in words. What is written here of a record can be
//! written again on the command line.

use serde_json::{json, Value};
use tillerclover::{
    Ace, Answer, Asserted, Body, Cred, Header, Period, Permission, Resource, Role, Set, Slot, State, Subject, Uuid,
    Verb, ANYONE,
};

use crate::times::{self, Zone};
use crate::{hex, names};

/// A UUID, or that there is none.
pub fn uuid(uuid: Uuid) -> String {
    if uuid.is_nil() {
        "none".into()
    } else {
        uuid.to_string()
    }
}

/// A subject of an access row.
pub fn subject(subject: Subject) -> String {
    match subject {
        Subject::Uuid(uuid) => uuid.to_string(),
        Subject::Role(role) => format!("role:{role}"),
        Subject::Connection(connection) => connection.to_string(),
        Subject::Other { kind, bytes } => format!("kind {kind}, {}", hex::write(&bytes)),
    }
}

/// A UUID and its partner's name, for people.
pub fn named_uuid(one: Uuid) -> String {
    names::beside(uuid(one), names::of_uuid(one))
}

/// A subject and its name, for people.
pub fn named_subject(one: Subject) -> String {
    match one {
        Subject::Uuid(uuid) => named_uuid(uuid),
        Subject::Role(role) => names::beside(subject(one), names::of_role(role)),
        _ => subject(one),
    }
}

/// A role and its name, for people; or that there is none.
pub fn named_role(one: Role) -> String {
    names::beside(role(one), names::of_role(one))
}

/// A sender and its name, for people.
pub fn named_sender(number: u16) -> String {
    names::beside(sender(number), names::of_number(number))
}

/// A record, and its sender's name as a comment after it.
pub fn named_record(bytes: &[u8]) -> String {
    let name = Header::read(bytes).and_then(|header| names::of_number(header.sender));
    format!("{}{}", record(bytes), name.map_or(String::new(), |name| format!("  # {name}")))
}

/// Resources by name and wildcards by sign, with this between them.
pub fn resources(row: &Ace, between: &str) -> String {
    let mut all = set(row.resources);
    all.extend(row.wildcards.to_string().chars().map(String::from));
    all.join(between)
}

/// The names of a set's resources.
pub fn set(set: Set) -> Vec<String> {
    set.resources().map(|resource| resource.to_string()).collect()
}

/// A role of a credential row, or that there is none.
pub fn role(role: Role) -> String {
    if role.number == 0 {
        "none".into()
    } else {
        role.to_string()
    }
}

/// A sender by its credential number.
pub fn sender(number: u16) -> String {
    match number {
        ANYONE => "anybody in clear".into(),
        _ => format!("credential {number}"),
    }
}

/// A state with what it means.
pub fn state(state: State) -> String {
    let meaning = match state {
        State::RFOTM => "ready for owner transfer",
        State::RFPRO => "ready for provisioning",
        State::RFNOP => "ready for normal operation",
        State::SRESET => "soft reset",
        _ => return state.to_string(),
    };
    format!("{state}, {meaning}")
}

/// Asserted roles, each with its last second.
pub fn asserted(roles: &[Asserted]) -> String {
    let used = roles.iter().filter(|place| **place != Asserted::default());
    let words: Vec<String> = used.map(|place| format!("{} to {}", place.role, times::word(place.last))).collect();
    words.join(", ")
}

/// A record in words; in hexadecimal digits if no words can say it.
pub fn record(record: &[u8]) -> String {
    named(record).unwrap_or_else(|| format!("hex:{}", hex::write(record)))
}

/// The record in words, where its header has names for all that it holds.
fn named(record: &[u8]) -> Option<String> {
    let header = Header::read(record)?;
    header.verb.name()?;
    header.resource.name()?;
    if header.zeros != 0 || (header.connection.number() == 1) != (header.sender != 0) {
        return None;
    }
    let sender = if header.sender == 0 { String::new() } else { format!(" as {}", header.sender) };
    let body = body(header.verb, header.resource, &record[Header::LENGTH..]);
    let space = if body.is_empty() { "" } else { " " };
    Some(format!("{} {}{sender}{space}{body}", header.verb, header.resource))
}

fn body(verb: Verb, resource: Resource, bytes: &[u8]) -> String {
    match Body::read(verb, resource, bytes) {
        Body::Empty if matches!((verb, resource), (Verb::DELETE, Resource::CRED | Resource::ACL2)) => "all".into(),
        Body::Empty => String::new(),
        Body::Owner(owner) => format!("owner={}", uuid(owner)),
        Body::RowOwner(owner) => format!("row-owner={}", uuid(owner)),
        Body::Target(target) if target.name().is_some() => format!("state={target}"),
        Body::Cred(row) if row.zeros == 0 => cred(&row),
        Body::Ace(row) if row.zeros == 0 && spoken(&row) => ace(&row),
        Body::Role(Asserted { role, last }) => format!("role={role} last={}", times::word(last)),
        Body::Number(number) => format!("number={number}"),
        Body::Subject(subject) => format!("subject={subject}"),
        _ => text(bytes).unwrap_or_else(|| format!("hex:{}", hex::write(bytes))),
    }
}

/// Whether a row's words say all of it.
fn spoken(row: &Ace) -> bool {
    !matches!(row.subject, Subject::Other { .. }) && row.resources.resources().all(|one| one.name().is_some())
}

/// Bytes that are letters, digits and signs without a space.
fn text(bytes: &[u8]) -> Option<String> {
    let plain = bytes.iter().all(|byte| byte.is_ascii_graphic());
    plain.then(|| format!("text:{}", String::from_utf8_lossy(bytes)))
}

/// A credential row as the body that stores it.
pub fn cred(row: &Cred) -> String {
    let mut words = vec![format!("number={}", row.number), format!("subject={}", row.subject)];
    if row.role.number != 0 || row.role.authority != 0 {
        words.push(format!("role={}", row.role));
    }
    if row.kind != 0 {
        words.push(format!("type={}", row.kind));
    }
    words.join(" ")
}

/// An access row as the body that stores it.
pub fn ace(row: &Ace) -> String {
    let mut words = vec![format!("number={}", row.number), format!("subject={}", subject(row.subject))];
    words.push(format!("permission={}", row.permission));
    words.push(format!("resources={}", resources(row, ",")));
    if row.period.first != Period::ALWAYS.first {
        words.push(format!("first={}", times::word(row.period.first)));
    }
    if row.period.last != Period::ALWAYS.last {
        words.push(format!("last={}", times::word(row.period.last)));
    }
    words.join(" ")
}

/// What a reply to a RETRIEVE says, a line for each part.
pub fn reply(resource: Resource, reply: &[u8]) -> Vec<String> {
    let (own, rest) = match resource {
        Resource::DOXM => reply.split_at(reply.len().min(17)),
        Resource::PSTAT => reply.split_at(reply.len().min(1)),
        _ => reply.split_at(0),
    };
    let mut lines = Vec::new();
    if !own.is_empty() {
        lines.push(body(Verb::UPDATE, resource, own));
    }
    let mut rows = rest;
    if Resource::WITH_ROW_OWNER.contains(&resource) && rest.len() >= 16 {
        lines.push(body(Verb::UPDATE, resource, &rest[..16]));
        rows = &rest[16..];
    }
    let length = match resource {
        Resource::CRED => Cred::LENGTH,
        Resource::ACL2 => Ace::LENGTH,
        _ => Asserted::LENGTH,
    };
    lines.extend(rows.chunks(length).map(|row| body(Verb::UPDATE, resource, row)));
    lines
}

/// An answer for programs.
pub fn answer_json(answer: Answer) -> Value {
    json!({ "number": answer.number(), "words": answer.to_string() })
}

/// A permission for programs.
pub fn permission_json(permission: Permission) -> Value {
    json!({ "number": permission.number(), "letters": permission.to_string() })
}

/// A credential row for programs.
pub fn cred_json(row: &Cred) -> Value {
    json!({
        "number": row.number,
        "subject": row.subject.to_string(),
        "role": row.role.number,
        "authority": row.role.authority,
        "type": row.kind,
        "asserted": asserted_json(&row.asserted),
    })
}

/// Asserted roles for programs.
pub fn asserted_json(roles: &[Asserted]) -> Value {
    let used = roles.iter().filter(|place| **place != Asserted::default());
    used.map(|place| json!({ "role": place.role.number, "authority": place.role.authority, "last": place.last }))
        .collect()
}

/// A waiting record for programs.
pub fn slot_json(slot: &Slot) -> Value {
    json!({ "sender": slot.sender, "record": hex::write(&slot.record), "words": record(&slot.record) })
}

/// Where the round of the queue is.
pub fn round(last_taken: Option<u16>) -> String {
    match last_taken {
        None => "begins anew".into(),
        Some(ANYONE) => "stands after an unauthenticated sender's".into(),
        Some(number) => format!("stands after credential {number}'s"),
    }
}

/// An access row for programs.
pub fn ace_json(row: &Ace) -> Value {
    json!({
        "number": row.number,
        "subject": subject(row.subject),
        "permission": permission_json(row.permission),
        "resources": set(row.resources),
        "wildcards": row.wildcards.to_string(),
        "first": row.period.first,
        "last": row.period.last,
    })
}

/// The line above access rows in columns.
pub fn ace_head() -> String {
    format!("number\tsubject\tpermission\tresources\tseason ({})", Zone::chosen().name())
}

/// Resources of a row between spaces, or that there are none.
pub fn resources_or_nothing(row: &Ace) -> String {
    let resources = resources(row, " ");
    if resources.is_empty() {
        "nothing".into()
    } else {
        resources
    }
}

/// An access row in columns.
pub fn ace_columns(row: &Ace) -> String {
    let resources = resources_or_nothing(row);
    let season = times::period(row.period);
    format!("{}\t{}\t{}\t{resources}\t{season}", row.number, named_subject(row.subject), row.permission)
}
