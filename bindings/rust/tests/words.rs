//! What the C headers read of rows, tables and names, compared with what the binding reads: the lines of tests/words.c, a kind, an
//! input in hexadecimal and a result. TILLERCLOVER_WORDS names the file; without it there is nothing to compare.

use std::fmt::Write;

use tillerclover::{Ace, Asserted, Connection, Cred, OldRow, Permission, Resource, State, Subject, Uuid, Verb};

fn bytes_of(hex: &str) -> Vec<u8> {
    (0..hex.len() / 2).map(|at| u8::from_str_radix(&hex[2 * at..2 * at + 2], 16).expect("hexadecimal")).collect()
}

fn hex_of(bytes: &[u8]) -> String {
    bytes.iter().map(|byte| format!("{byte:02x}")).collect()
}

fn part<const N: usize>(bytes: &[u8], at: usize) -> [u8; N] {
    bytes[at..at + N].try_into().expect("a part")
}

fn cred(bytes: &[u8]) -> String {
    let row = Cred::from_body(bytes).expect("a body");
    format!("{} {} {} {} {}", row.number, hex_of(&row.subject.0), row.role.number, row.role.authority, row.kind)
}

/// The subject's bytes, and what each kind would make of them.
fn ace(bytes: &[u8]) -> String {
    let row = Ace::from_bytes(&part(bytes, 0));
    let (kind, subject) = row.subject.bits();
    match row.subject {
        Subject::Uuid(uuid) => assert_eq!(uuid.0, subject),
        Subject::Role(role) => assert_eq!((role.authority, role.number), (number(&subject, 12), number(&subject, 14))),
        Subject::Connection(connection) => assert_eq!(connection.0, subject[15]),
        Subject::Other { .. } => {}
    }
    format!(
        "{} {kind} {} {} {} {} {} {} {:016x} {} {}",
        row.number,
        hex_of(&subject),
        number(&subject, 14),
        number(&subject, 12),
        subject[15] & 1,
        row.permission.0,
        row.wildcards.0,
        row.resources.0,
        row.period.first,
        row.period.last
    )
}

fn number(bytes: &[u8], at: usize) -> u16 {
    u16::from_be_bytes(part(bytes, at))
}

fn role(bytes: &[u8]) -> String {
    let asserted = Asserted::from_bytes(&part(bytes, 0));
    format!("{} {} {}", asserted.role.number, asserted.role.authority, asserted.last)
}

fn old(bytes: &[u8]) -> String {
    let row = OldRow::from_bytes(&part(bytes, 0));
    format!("{} {} {:016x}", hex_of(&row.subject.0), row.permission.0, row.resources.0)
}

fn tables(bytes: &[u8]) -> String {
    let creds: Vec<Cred> = bytes[84..1020].chunks(Cred::ROW).map(|row| Cred::from_row(&part(row, 0))).collect();
    let aces: Vec<Ace> = bytes[1020..].chunks(Ace::LENGTH).map(|row| Ace::from_bytes(&part(row, 0))).collect();
    let (creds, aces) = (&creds[..usize::from(bytes[2]).min(24)], &aces[..usize::from(bytes[3]).min(32)]);
    let mut text = String::new();
    for row in creds {
        let first = creds.iter().position(|other| other.number == row.number).expect("itself");
        let [one, two] = row.asserted.map(|asserted| asserted.role.number);
        write!(text, "{} {one} {two} {first} ", row.number).expect("a text");
    }
    text += "/ ";
    for row in aces {
        let first = aces.iter().position(|other| other.number == row.number).expect("itself");
        write!(text, "{} {first} ", row.number).expect("a text");
    }
    text
}

fn name(name: Option<&str>) -> String {
    name.unwrap_or("none").to_string()
}

fn number_of(number: Option<u8>) -> String {
    number.map_or("-1".to_string(), |number| number.to_string())
}

fn made(kind: &str, bytes: &[u8]) -> String {
    let text = || std::str::from_utf8(bytes).expect("ASCII");
    match kind {
        "cred" => cred(bytes),
        "ace" => ace(bytes),
        "role" => role(bytes),
        "old" => old(bytes),
        "tables" => tables(bytes),
        "verb" => name(Verb(bytes[0]).name()),
        "verb-of" => number_of(Verb::named(text()).map(Verb::number)),
        "connection" => name(Connection(bytes[0]).name()),
        "connection-of" => number_of(Connection::named(text()).map(Connection::number)),
        "resource" => name(Resource(bytes[0]).name()),
        "resource-of" => number_of(Resource::named(text()).map(Resource::number)),
        "state" => name(State(bytes[0]).name()),
        "state-of" => number_of(State::named(text()).map(State::number)),
        "permission" => Permission(bytes[0]).to_string(),
        "permission-of" => number_of(text().parse().ok().map(Permission::number)),
        "uuid" => Uuid(part(bytes, 0)).to_string(),
        "uuid-of" => text().parse().map_or("none".to_string(), |uuid: Uuid| hex_of(&uuid.0)),
        "version" => format!("{}.{}", number(bytes, 0) / 1000, number(bytes, 0) % 1000),
        _ => panic!("'{kind}' is no kind"),
    }
}

#[test]
fn the_headers_read_the_same() {
    let Ok(path) = std::env::var("TILLERCLOVER_WORDS") else { return };
    let lines = std::fs::read_to_string(path).expect("the lines");
    let mut kinds = std::collections::BTreeSet::new();
    for line in lines.lines() {
        let [kind, hex, result] = line.split('\t').collect::<Vec<_>>()[..] else {
            panic!("a line has three parts: {line}")
        };
        assert_eq!(made(kind, &bytes_of(hex)), result, "{line}");
        kinds.insert(kind);
    }
    assert_eq!(kinds.len(), 18, "each kind is compared: {kinds:?}");
}
