//! Tests of the default rows of a build.

use super::*;
use crate::answers::{NO_CREDENTIAL, PERMITTED};
use crate::case::Case;
use crate::directory::{CRED, DOXM, PSTAT, WEIGHT};
use crate::examples::{access, credential, owned, uuid, ANON, AUTH};
use crate::generate::{self, Style};
use crate::hex;
use crate::random::Random;
use crate::record::{compose, target_body, Verb, MAY_ALL, MAY_CREATE, MAY_RETRIEVE, MAY_UPDATE};
use crate::rules::{judge, Outcome};
use crate::run;
use crate::spoil::{ACCESS_FAULTS, CREDENTIAL_FAULTS};
use crate::tables::{State, TableBytes, RESET, STAR};

fn two_and_two() -> Defaults {
    Defaults::of(
        &[credential(900, uuid(0x91)), credential(5, uuid(0x92))],
        &[access(5, AUTH, MAY_ALL, STAR, &[CRED]), access(2, ANON, MAY_RETRIEVE, 0, &[DOXM])],
    )
}

fn judge_with(defaults: &Defaults, tables: &TableBytes, record: &[u8]) -> Outcome {
    judge(&Case { defaults: defaults.clone(), ..Case::new(tables, record) })
}

fn reset(sender: u16) -> Vec<u8> {
    compose(Verb::Update, PSTAT, sender, &target_body(RESET))
}

#[test]
fn the_makers_rows_come_back() {
    let defaults = two_and_two();
    let fresh = defaults.fresh();
    assert_eq!((fresh.state, fresh.device_owner, fresh.row_owners), (State::Rfotm, None, [None; 4]));
    assert_eq!(fresh.credentials, [credential(900, uuid(0x91)), credential(5, uuid(0x92))]);
    assert_eq!(fresh.accesses, [access(5, AUTH, MAY_ALL, STAR, &[CRED]), access(2, ANON, MAY_RETRIEVE, 0, &[DOXM])]);
    for state in State::ALL {
        let mut tables = owned(state);
        tables.row_owners = [Some(uuid(0x11)); 4];
        tables.accesses = (1..=32).map(|number| access(number, ANON, MAY_CREATE, STAR, &[])).collect();
        let outcome = judge_with(&defaults, &tables.bytes(), &reset(5));
        assert_eq!(
            (outcome.response.answer, outcome.response.permission, outcome.response.store),
            (PERMITTED, MAY_ALL, 0..0)
        );
        assert_eq!(outcome.tables, fresh.bytes());
    }
    let by_hand = hex::write(&fresh.bytes());
    // No role is shown yet.
    let (nothing, shown) = ("00".repeat(80), "00".repeat(16));
    let first = format!("01 00 02 02 {nothing} 0384 {} 0000 0000 10 {shown} 0005", "91".repeat(16));
    assert!(by_hand.starts_with(&first.replace(' ', "")));
}

#[test]
fn without_lists_nothing_is_new() {
    assert_eq!(Defaults::none().fresh(), Tables::fresh());
    assert_eq!(judge(&Case::new(&owned(State::Rfnop).bytes(), &reset(5))).tables, Tables::fresh().bytes());
    // The run program has none: a reset takes the sender's row away.
    let mut input = hex::literal(&format!("00000000 0019 40800000 0005 {} 0000 04", "11".repeat(16)));
    input.extend(hex::literal("00000000 0005 40400000 00 00000000 0004 30000005"));
    assert_eq!(run::text(&input), "n answer perm state\n1 0 31 1\n2 0 31 1\n3 7 0 1\n");
}

#[test]
fn deleted_defaults_stay_away_until_the_next_clear() {
    let defaults = two_and_two();
    let mut tables = defaults.fresh().bytes();
    for (resource, many) in [(2, 2), (3, 2), (2, 0), (3, 0)] {
        let outcome = judge_with(&defaults, &tables, &compose(Verb::Delete, resource, 0, &[]));
        assert_eq!((outcome.response.answer, outcome.response.store), (PERMITTED, 0..many));
        tables = outcome.tables;
    }
    assert_eq!(tables, Tables::fresh().bytes());
    // Other records don't bring them back.
    tables = judge_with(&defaults, &tables, &compose(Verb::Retrieve, CRED, 0, &[])).tables;
    tables = judge_with(&defaults, &tables, &compose(Verb::Update, CRED, 0, &[0x33; 16])).tables;
    assert_eq!((tables[2], tables[3]), (0, 0));
    tables = judge_with(&defaults, &tables, &reset(0)).tables;
    assert_eq!(tables, defaults.fresh().bytes());
}

#[test]
fn the_tool_has_its_credential_after_a_clear() {
    let defaults = two_and_two();
    let tables = judge_with(&defaults, &owned(State::Rfnop).bytes(), &reset(5)).tables;
    let outcome = judge_with(&defaults, &tables, &compose(Verb::Retrieve, CRED, 900, &[]));
    assert_eq!((outcome.response.answer, outcome.response.reply.len()), (PERMITTED, 16 + 46));
    assert_eq!(
        judge_with(&Defaults::none(), &tables, &compose(Verb::Retrieve, CRED, 901, &[])).response.answer,
        NO_CREDENTIAL
    );
}

#[test]
fn bad_lists_count_as_none() {
    let good = two_and_two();
    let fresh = good.fresh();
    let mut random = Random::new(21);
    let mut credentials = Vec::new();
    let mut accesses = Vec::new();
    // Three rows; a number twice; lengths next to a row's.
    let three = [1, 2, 3].map(|number| credential(number, uuid(0x91)));
    credentials.push((ListError::TooManyRows, join(&three)));
    credentials.push((ListError::NumberTwice, join(&[credential(5, uuid(0x91)), credential(5, uuid(0x92))])));
    let three = [1, 2, 3].map(|number| access(number, AUTH, MAY_RETRIEVE, 0, &[WEIGHT]));
    accesses.push((ListError::TooManyRows, join(&three)));
    accesses.push((
        ListError::NumberTwice,
        join(&[access(5, AUTH, MAY_RETRIEVE, 0, &[]), access(5, ANON, MAY_UPDATE, STAR, &[])]),
    ));
    for length in [1, 20, 21, 22, 24, 42, 45, 47, 70] {
        let mut list = good.default_creds.clone();
        list.resize(length, 0);
        credentials.push((ListError::Length, list));
    }
    // Rows in the form of a body without an authority.
    let short: Vec<u8> = [1, 2].iter().flat_map(|&number| credential(number, uuid(0x91)).short_body()).collect();
    credentials.push((ListError::Length, short[..21].to_vec()));
    credentials.push((ListError::Length, short));
    // Rows in the form of a body without a period.
    let short: Vec<u8> =
        [1, 2].iter().flat_map(|&number| access(number, AUTH, MAY_RETRIEVE, 0, &[WEIGHT]).short_body()).collect();
    accesses.push((ListError::Length, short[..28].to_vec()));
    accesses.push((ListError::Length, short));
    for length in [1, 21, 27, 28, 35, 37, 56, 71, 73] {
        let mut list = good.default_aces.clone();
        list.resize(length, 0);
        accesses.push((ListError::Length, list));
    }
    // Each forbidden row as each row, alone or with a good one.
    for (_, fault) in CREDENTIAL_FAULTS {
        for rows in [0..23, 0..46] {
            for place in rows.clone().step_by(23) {
                let mut list = good.default_creds[rows.clone()].to_vec();
                fault(&mut list[place..place + 23], &mut random);
                credentials.push((ListError::Row, list));
            }
        }
    }
    for (_, fault) in ACCESS_FAULTS {
        for rows in [0..36, 0..72] {
            for place in rows.clone().step_by(36) {
                let mut list = good.default_aces[rows.clone()].to_vec();
                fault(&mut list[place..place + 36], &mut random);
                accesses.push((ListError::Row, list));
            }
        }
    }
    for (fault, list) in credentials {
        let defaults = Defaults { default_creds: list, ..good.clone() };
        assert_eq!(defaults.read_credentials(), Err(fault));
        // The other list counts.
        assert_eq!(defaults.fresh(), Tables { credentials: Vec::new(), ..fresh.clone() });
        let tables = judge_with(&defaults, &owned(State::Rfpro).bytes(), &reset(5)).tables;
        assert_eq!(tables, defaults.fresh().bytes());
    }
    for (fault, list) in accesses {
        let defaults = Defaults { default_aces: list, ..good.clone() };
        assert_eq!(defaults.read_accesses(), Err(fault));
        assert_eq!(defaults.fresh(), Tables { accesses: Vec::new(), ..fresh.clone() });
        let tables = judge_with(&defaults, &owned(State::Rfpro).bytes(), &reset(5)).tables;
        assert_eq!(tables, defaults.fresh().bytes());
    }
}

#[test]
fn fresh_tables_are_sound_for_any_lists() {
    let mut random = Random::new(22);
    for _ in 0..5000 {
        let defaults = generate::defaults(&mut random);
        let fresh = defaults.fresh();
        assert_eq!(Tables::read(&fresh.bytes()), Ok(fresh.clone()));
        assert!(fresh.credentials.len() <= DEFAULTS_MAX && fresh.accesses.len() <= DEFAULTS_MAX);
        assert!(!fresh.owned() && fresh.state == State::Rfotm);
        // Anybody may reset such tables, and nothing changes.
        assert_eq!(judge_with(&defaults, &fresh.bytes(), &reset(0)).tables, fresh.bytes());
    }
}

#[test]
fn the_lists_matter_to_a_reset_alone() {
    let mut random = Random::new(23);
    let mut resets = 0;
    for _ in 0..10_000 {
        let defaults = generate::defaults(&mut random);
        let tables = generate::any_sound(&mut random).bytes();
        let record = generate::record(&mut random, Style::Mixed, &tables, 0);
        let with = judge_with(&defaults, &tables, &record);
        let without = judge_with(&Defaults::none(), &tables, &record);
        let is_reset =
            record.len() == 5 && without.response.answer == PERMITTED && record[0] >> 5 == 2 && record[4] == 0;
        if is_reset && without.response.payload.is_empty() {
            resets += 1;
            assert_eq!(Outcome { tables: defaults.fresh().bytes(), ..without }, with);
        } else {
            assert_eq!(without, with);
        }
    }
    assert!(resets > 20, "{resets}");
}

#[test]
fn lists_of_every_kind_are_drawn() {
    let mut random = Random::new(24);
    let mut credentials = std::collections::BTreeMap::new();
    let mut accesses = std::collections::BTreeMap::new();
    for _ in 0..5000 {
        let defaults = generate::defaults(&mut random);
        *credentials.entry(defaults.read_credentials().map(|rows| rows.len())).or_insert(0) += 1;
        *accesses.entry(defaults.read_accesses().map(|rows| rows.len())).or_insert(0) += 1;
    }
    for counts in [credentials, accesses] {
        // None, one and two rows, and four faults.
        assert_eq!(counts.len(), 3 + 4, "{counts:?}");
        assert!(counts.values().all(|&count| count > 100), "{counts:?}");
    }
}
