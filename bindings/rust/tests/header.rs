//! The numbers of the binding are those of include/tillerclover.h.

#![forbid(unsafe_code)]

use std::collections::BTreeMap;

use tillerclover::{
    interface, Ace, Answer, Asserted, Connection, Cred, Header, OldRow, Permission, Resource, State, Verb,
};
use tillerclover::{Waiting, Wildcards, FORMAT, INTERFACE_MAJOR, INTERFACE_MINOR};

/// The header's enums, each with its constants; macros that are numbers are in one without a name.
fn header() -> BTreeMap<String, BTreeMap<String, usize>> {
    let path = concat!(env!("CARGO_MANIFEST_DIR"), "/include/tillerclover.h");
    let text = std::fs::read_to_string(path).expect("the header");
    let mut enums: BTreeMap<String, BTreeMap<String, usize>> = BTreeMap::new();
    let mut within = String::new();
    for line in text.lines().map(str::trim) {
        if let Some(name) = line.strip_prefix("enum ").and_then(|rest| rest.strip_suffix('{')) {
            within = name.trim().trim_start_matches("tillerclover_").to_string();
        }
        let line = line.strip_prefix("#define ").map_or(line.to_string(), |rest| rest.replacen(' ', "=", 1));
        let Some((name, value)) = line.split_once('=') else { continue };
        let Some(name) = name.trim().strip_prefix("TILLERCLOVER_") else { continue };
        if let Ok(value) = value.trim().trim_end_matches(',').parse() {
            enums.entry(within.clone()).or_default().insert(name.to_string(), value);
        }
    }
    enums
}

/// An enum of the header has just these numbers.
fn same(name: &str, own: &[u8]) {
    let mut numbers: Vec<usize> = header()[name].values().copied().collect();
    numbers.sort_unstable();
    assert_eq!(numbers, own.iter().map(|&number| number.into()).collect::<Vec<usize>>(), "{name}");
}

#[test]
fn every_number_with_a_name() {
    same("verb", &Verb::ALL.iter().map(|one| one.number()).collect::<Vec<_>>());
    same("connection", &Connection::ALL.iter().map(|one| one.number()).collect::<Vec<_>>());
    same("resource", &Resource::ALL.iter().map(|one| one.number()).collect::<Vec<_>>());
    same("state", &State::ALL.iter().map(|one| one.number()).collect::<Vec<_>>());
    // 0 has two names: a record that is judged, and one that is handed in
    same("answer", &[&[Answer::KEPT], Answer::ALL].concat().iter().map(|one| one.number()).collect::<Vec<_>>());
    same("permission", &[1, 2, 4, 8, 16, Permission::ALL.number()]);
    same("wildcard", &[Wildcards::ALL, Wildcards::UNSECURE, Wildcards::SECURE].map(Wildcards::number));
}

#[test]
fn names_mean_the_same() {
    let header = header();
    for (name, number) in [
        ("CREATE", Verb::CREATE.number()),
        ("OBSERVE", Verb::OBSERVE.number()),
        ("AUTH_CRYPT", Connection::AUTH_CRYPT.number()),
        ("DOXM", Resource::DOXM.number()),
        ("ROLES", Resource::ROLES.number()),
        ("TICKET", Resource::TICKET.number()),
        ("YARD", Resource::YARD.number()),
        ("RESET", State::RESET.number()),
        ("RFNOP", State::RFNOP.number()),
        ("PERMITTED", Answer::PERMITTED.number()),
        ("KEPT", Answer::KEPT.number()),
        ("NOT_PERMITTED", Answer::NOT_PERMITTED.number()),
        ("NO_ENDPOINT", Answer::NO_ENDPOINT.number()),
        ("ROLES_FULL", Answer::ROLES_FULL.number()),
        ("NOTHING_WAITING", Answer::NOTHING_WAITING.number()),
        ("WILDCARD_STAR", Wildcards::ALL.number()),
        ("WILDCARD_MINUS", Wildcards::UNSECURE.number()),
        ("WILDCARD_PLUS", Wildcards::SECURE.number()),
        ("MAY_DELETE", Permission::DELETE.number()),
        ("INTERFACE_MAJOR", INTERFACE_MAJOR),
        ("INTERFACE_MINOR", INTERFACE_MINOR),
        ("FORMAT", FORMAT),
    ] {
        let found = header.values().find_map(|numbers| numbers.get(name));
        assert_eq!(found, Some(&number.into()), "{name}");
    }
}

#[test]
fn answers_have_the_same_words() {
    let path = concat!(env!("CARGO_MANIFEST_DIR"), "/include/tillerclover_records.h");
    let text = std::fs::read_to_string(path).expect("the header of records");
    let answers = &header()["answer"];
    let mut words = BTreeMap::new();
    for arm in text.split("case TILLERCLOVER_").skip(1) {
        let (name, rest) = arm.split_once(':').expect("a name");
        if let (Some(number), Some(said)) = (answers.get(name), rest.split('"').nth(1)) {
            words.insert(*number, said.to_string());
        }
    }
    let own: BTreeMap<_, _> = Answer::ALL.iter().map(|one| (usize::from(one.number()), one.to_string())).collect();
    assert_eq!(words, own);
}

#[test]
fn sizes() {
    let header = header();
    for (name, size) in [
        ("HEADER_LENGTH", Header::LENGTH),
        ("RECORD_MAX", interface::RECORD_MAX),
        ("CRED_LENGTH", Cred::LENGTH),
        ("CRED_ROW_LENGTH", Cred::ROW),
        ("CRED_CAPACITY", Cred::CAPACITY),
        ("ROLE_LENGTH", Asserted::LENGTH),
        ("ACE_LENGTH", Ace::LENGTH),
        ("ACE_CAPACITY", Ace::CAPACITY),
        ("OLD_ROW_LENGTH", OldRow::LENGTH),
        ("REPLY_MAX", interface::REPLY_MAX),
        ("TEXT_MAX", interface::TEXT_MAX),
        ("CONVERTED_MAX", interface::CONVERTED_MAX),
        ("WAITING_LENGTH", Waiting::SIZE),
        ("SLOT_LENGTH", Waiting::SLOT),
        ("WAITING_SLOTS_AT", Waiting::SLOTS),
    ] {
        let found = header.values().find_map(|numbers| numbers.get(name));
        assert_eq!(found, Some(&size), "{name}");
    }
}
