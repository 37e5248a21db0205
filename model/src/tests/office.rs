//! Tests of the office text against texts worked out by hand.

use super::*;
use std::collections::HashMap;

use crate::answers::PERMITTED;
use crate::case::{Case, GUARD};
use crate::directory;
use crate::directory::{ACL2, DISPLAY, DOXM, WEIGHT};
use crate::examples::{access, owned, role, uuid, ANON, AUTH};
use crate::generate;
use crate::random::Random;
use crate::record::{MAY_ALL, MAY_DELETE, MAY_NOTIFY, MAY_RETRIEVE, MAY_UPDATE};
use crate::spoil::TABLE_FAULTS;
use crate::tables::{Row, State, ACCESSES, MINUS, PLUS, STAR};
use crate::texts::Listed;
fn with_rows(accesses: Vec<Access>) -> Tables {
    Tables { accesses, ..Tables::fresh() }
}

/// The text of a single row, without what is around it.
fn one(row: Access) -> String {
    let text = text(&[row]);
    let row = text.strip_prefix(r#"{"aclist2":["#).and_then(|rest| rest.strip_suffix("]}"));
    row.expect("a list").to_string()
}

#[test]
fn the_row_of_the_request() {
    let row = access(1, ANON, MAY_RETRIEVE, 0, &[WEIGHT]);
    let expected = r#"{"aceid":1,"subject":{"conntype":"anon-clear"},"resources":[{"href":"/weight"}],"permission":2}"#;
    assert_eq!(one(row.clone()), expected);
    assert_eq!(text(&[row]), format!(r#"{{"aclist2":[{expected}]}}"#));
}

#[test]
fn an_empty_list() {
    assert_eq!(text(&[]), r#"{"aclist2":[]}"#);
    assert_eq!(
        one(access(3, AUTH, 0, 0, &[])),
        r#"{"aceid":3,"subject":{"conntype":"auth-crypt"},"resources":[],"permission":0}"#
    );
}

#[test]
fn rows_in_table_order() {
    let rows = [
        access(9, role(0, 7), MAY_ALL, STAR, &[DISPLAY, ACL2]),
        access(10, Subject::Uuid(uuid(0xA1)), MAY_UPDATE, 0, &[]),
        access(2, AUTH, MAY_NOTIFY, PLUS | MINUS, &[DOXM]),
    ];
    let expected = concat!(
        r#"{"aclist2":["#,
        r#"{"aceid":9,"subject":{"authority":"0","role":"7"},"#,
        r#""resources":[{"href":"/oic/sec/acl2"},{"href":"/display"},{"wc":"*"}],"permission":31},"#,
        r#"{"aceid":10,"subject":{"uuid":"a1a1a1a1-a1a1-a1a1-a1a1-a1a1a1a1a1a1"},"#,
        r#""resources":[],"permission":4},"#,
        r#"{"aceid":2,"subject":{"conntype":"auth-crypt"},"#,
        r#""resources":[{"href":"/oic/sec/doxm"},{"wc":"+"},{"wc":"-"}],"permission":16}"#,
        r#"]}"#
    );
    assert_eq!(text(&rows), expected);
    let turned: Vec<Access> = rows.iter().rev().cloned().collect();
    assert_ne!(text(&turned), expected);
}

/// What is between the brackets of the resources.
fn resources_of(wildcards: u8, numbers: &[u8]) -> String {
    let text = one(access(1, ANON, MAY_RETRIEVE, wildcards, numbers));
    let (_, rest) = text.split_once(r#""resources":["#).expect("resources");
    rest.strip_suffix(r#"],"permission":2}"#).expect("permission").to_string()
}

#[test]
fn every_resource_by_its_name() {
    let names = [
        (0, "/oic/sec/doxm"),
        (1, "/oic/sec/pstat"),
        (2, "/oic/sec/cred"),
        (3, "/oic/sec/acl2"),
        (4, "/oic/sec/roles"),
        (8, "/weight"),
        (9, "/tare"),
        (10, "/zero"),
        (11, "/ticket"),
        (12, "/lamp"),
        (13, "/calib"),
        (14, "/display"),
        (16, "/yard"),
    ];
    let item = |name| format!(r#"{{"href":"{name}"}}"#);
    for (number, name) in names {
        assert_eq!(resources_of(0, &[number]), item(name));
        assert_eq!(resources_of(5, &[number]), format!(r#"{},{{"wc":"+"}},{{"wc":"*"}}"#, item(name)));
    }
    // Two by two, whichever comes first in the set.
    for (first, (number, name)) in names.into_iter().enumerate() {
        for (later, later_name) in names.into_iter().skip(first + 1) {
            let both = format!("{},{}", item(name), item(later_name));
            assert_eq!(resources_of(0, &[later, number]), both);
        }
    }
    let all: Vec<String> = names.iter().map(|(_, name)| item(name)).collect();
    assert_eq!(resources_of(0, &names.map(|(number, _)| number)), all.join(","));
    assert_eq!(names.iter().fold(0, |set, &(number, _)| set | directory::set_bit(number)), directory::known());
}

#[test]
fn every_choice_of_wildcards() {
    let expected = [
        "",
        r#"{"wc":"*"}"#,
        r#"{"wc":"-"}"#,
        r#"{"wc":"-"},{"wc":"*"}"#,
        r#"{"wc":"+"}"#,
        r#"{"wc":"+"},{"wc":"*"}"#,
        r#"{"wc":"+"},{"wc":"-"}"#,
        r#"{"wc":"+"},{"wc":"-"},{"wc":"*"}"#,
    ];
    for (wildcards, expected) in (0..8).zip(expected) {
        assert_eq!(resources_of(wildcards, &[]), expected);
        let comma = if expected.is_empty() { "" } else { "," };
        assert_eq!(resources_of(wildcards, &[9, 13]), {
            format!(r#"{{"href":"/tare"}},{{"href":"/calib"}}{comma}{expected}"#)
        });
    }
}

/// What follows `"subject":`.
fn subject_of(subject: Subject) -> String {
    let text = one(access(1, subject, 0, 0, &[]));
    let text = text.strip_prefix(r#"{"aceid":1,"subject":"#).expect("subject");
    text.strip_suffix(r#","resources":[],"permission":0}"#).expect("resources").to_string()
}

#[test]
fn every_kind_of_subject() {
    assert_eq!(subject_of(ANON), r#"{"conntype":"anon-clear"}"#);
    assert_eq!(subject_of(AUTH), r#"{"conntype":"auth-crypt"}"#);
    let uuid = |value: u128| subject_of(Subject::Uuid(Uuid::new(value).expect("not nil")));
    assert_eq!(uuid(0x0123456789ABCDEF_FEDCBA9876543210), r#"{"uuid":"01234567-89ab-cdef-fedc-ba9876543210"}"#);
    assert_eq!(uuid(u128::MAX), r#"{"uuid":"ffffffff-ffff-ffff-ffff-ffffffffffff"}"#);
    // Zeros in front count.
    assert_eq!(uuid(1), r#"{"uuid":"00000000-0000-0000-0000-000000000001"}"#);
    assert_eq!(uuid(0xA << 124), r#"{"uuid":"a0000000-0000-0000-0000-000000000000"}"#);
    for (number, digits) in
        [(1, "1"), (7, "7"), (9, "9"), (10, "10"), (99, "99"), (100, "100"), (256, "256"), (1792, "1792")]
    {
        assert_eq!(subject_of(role(0, number)), format!(r#"{{"authority":"0","role":"{digits}"}}"#));
        assert_eq!(subject_of(role(number, 3)), format!(r#"{{"authority":"{digits}","role":"3"}}"#));
    }
    assert_eq!(subject_of(role(10_000, 65_535)), r#"{"authority":"10000","role":"65535"}"#);
    assert_eq!(subject_of(role(65_535, 10_000)), r#"{"authority":"65535","role":"10000"}"#);
}

#[test]
fn rows_of_a_shorter_period_are_left_out() {
    let always = [1, 2, 3, 4, 5].map(|number| access(number, AUTH, MAY_RETRIEVE, 0, &[WEIGHT]));
    for (first, last) in
        [(1, u32::MAX), (0, u32::MAX - 1), (0, 0), (u32::MAX, u32::MAX), (1000, 2000), (1 << 31, u32::MAX)]
    {
        let period = Period::new(first, last).expect("a period");
        // Each choice of the five.
        for choice in 0..32 {
            let mut rows = always.clone();
            let mut left = Vec::new();
            for (place, row) in rows.iter_mut().enumerate() {
                if choice >> place & 1 == 1 {
                    row.period = period;
                } else {
                    left.push(row.clone());
                }
            }
            assert_eq!(text(&rows), text(&left));
            assert_eq!(read(&text(&rows)), Some(left));
        }
    }
}

#[test]
fn numbers_in_decimal() {
    for (number, digits) in
        [(1, "1"), (9, "9"), (10, "10"), (101, "101"), (1000, "1000"), (10_000, "10000"), (65_535, "65535")]
    {
        let text = one(access(number, ANON, MAY_RETRIEVE, 0, &[]));
        assert!(text.starts_with(&format!(r#"{{"aceid":{digits},"subject":"#)), "{text}");
    }
    for (permission, digits) in [(0, "0"), (1, "1"), (9, "9"), (10, "10"), (19, "19"), (20, "20"), (31, "31")] {
        let text = one(access(1, ANON, permission, 0, &[]));
        assert!(text.ends_with(&format!(r#"[],"permission":{digits}}}"#)), "{text}");
    }
}

#[test]
fn the_longest_text() {
    let all = Access { set: directory::known(), ..access(1, Subject::Uuid(Uuid::MAX), 31, 7, &[]) };
    let rows: Vec<Access> = (10_000..).take(32).map(|number| Access { number, ..all.clone() }).collect();
    assert_eq!(text(&rows).len(), TEXT_MAX);
    let mut random = Random::new(31);
    for _ in 0..500 {
        assert!(text(&generate::full_sound(&mut random).accesses).len() <= TEXT_MAX);
    }
}

#[test]
fn a_text_that_fits() {
    let tables = with_rows(vec![access(1, ANON, MAY_RETRIEVE, 0, &[WEIGHT])]);
    let expected = text(&tables.accesses);
    let fits = expected.len();
    for capacity in [fits, fits + 1, fits + 100, 20_000] {
        for fill in [0x00, b'}', 0xFF] {
            let mut buffer = vec![fill; capacity];
            assert_eq!(write(&tables.bytes(), &QueueBytes::empty(), &mut buffer), Ok(fits));
            assert_eq!(&buffer[..fits], expected.as_bytes());
            assert!(buffer[fits..].iter().all(|&byte| byte == fill));
        }
    }
    let listed = Listed::expected(&Case { capacity: fits + 3, ..Case::new(&tables.bytes(), &[]) });
    assert_eq!((listed.answer, listed.length), (0, fits));
    assert_eq!(listed.buffer.len(), fits + 3 + GUARD);
    assert_eq!(listed.buffer[fits..], Case::pattern(fits + 3 + GUARD)[fits..]);
}

#[test]
fn a_buffer_too_short() {
    let mut random = Random::new(32);
    for _ in 0..300 {
        let tables = generate::any_sound(&mut random);
        let fits = text(&tables.accesses).len();
        for capacity in [0, 1, 13, fits / 2, fits - 1, fits] {
            let mut buffer = Case::pattern(capacity);
            let found = write(&tables.bytes(), &QueueBytes::empty(), &mut buffer);
            if capacity < fits {
                assert_eq!(found, Err(Refusal::NoRoom));
                assert_eq!(buffer, Case::pattern(capacity));
            } else {
                assert_eq!(found, Ok(fits));
                assert_eq!(buffer, text(&tables.accesses).into_bytes());
            }
        }
    }
    let listed = Listed::expected(&Case { capacity: 13, ..Case::new(&Tables::fresh().bytes(), &[]) });
    assert_eq!(listed, Listed { answer: 18, length: 0, buffer: Case::pattern(13 + GUARD) });
}

#[test]
fn tables_that_are_not_sound() {
    let mut random = Random::new(33);
    for (name, fault) in TABLE_FAULTS {
        let mut made = 0;
        while made < 20 {
            let mut stored = generate::any_sound(&mut random).bytes();
            if !fault(&mut stored, &mut random) {
                continue;
            }
            made += 1;
            // Before the buffer is looked at.
            for capacity in [0, 1, 13, 14, 1000, TEXT_MAX, 20_000] {
                let mut buffer = Case::pattern(capacity);
                assert_eq!(write(&stored, &QueueBytes::empty(), &mut buffer), Err(Refusal::NotSound), "{name}");
                assert_eq!(buffer, Case::pattern(capacity), "{name}");
            }
            let listed = Listed::expected(&Case::new(&stored, &[]));
            assert_eq!((listed.answer, listed.length), (17, 0), "{name}");
        }
    }
}

#[test]
fn the_access_rows_alone_matter() {
    let mut random = Random::new(34);
    for _ in 0..300 {
        let tables = generate::any_sound(&mut random);
        let others = Tables { accesses: tables.accesses.clone(), ..generate::any_sound(&mut random) };
        let in_service = Tables { accesses: tables.accesses.clone(), ..owned(State::Rfnop) };
        let case = |tables: &Tables| Case { capacity: TEXT_MAX, ..Case::new(&tables.bytes(), &[]) };
        let expected = Listed::expected(&case(&tables));
        assert_eq!(expected.answer, PERMITTED);
        assert_eq!(Listed::expected(&case(&others)), expected);
        assert_eq!(Listed::expected(&case(&in_service)), expected);
    }
}

/// Rows that a text was made of; None for any other text.
fn read(text: &str) -> Option<Vec<Access>> {
    let mut rest = text.strip_prefix(r#"{"aclist2":["#)?.strip_suffix("]}")?;
    let mut rows = Vec::new();
    while !rest.is_empty() {
        if !rows.is_empty() {
            rest = rest.strip_prefix(',')?;
        }
        let (number, behind) = rest.strip_prefix(r#"{"aceid":"#)?.split_once(r#","subject":{""#)?;
        let (subject, behind) = behind.split_once(r#""},"resources":["#)?;
        let (resources, behind) = behind.split_once(r#"],"permission":"#)?;
        let (permission, behind) = behind.split_once('}')?;
        let (wildcards, set) = read_resources(resources)?;
        rows.push(Access {
            number: read_decimal(number)?,
            subject: read_subject(subject)?,
            permission: read_decimal(permission)?.try_into().ok()?,
            wildcards: Wildcards::from_number(wildcards),
            set,
            period: Period::ALWAYS,
        });
        rest = behind;
    }
    Some(rows)
}

fn read_decimal(digits: &str) -> Option<u16> {
    let plain = digits.bytes().all(|byte| byte.is_ascii_digit()) && (digits == "0" || !digits.starts_with('0'));
    plain.then(|| digits.parse().ok())?
}

fn read_subject(subject: &str) -> Option<Subject> {
    match subject.split_once(r#"":""#)? {
        ("conntype", "anon-clear") => Some(ANON),
        ("conntype", "auth-crypt") => Some(AUTH),
        ("authority", behind) => {
            let (authority, number) = behind.split_once(r#"","role":""#)?;
            Some(role(read_decimal(authority)?, read_decimal(number)?))
        }
        ("uuid", form) => {
            let parts: Vec<&str> = form.split('-').collect();
            let lengths: Vec<usize> = parts.iter().map(|part| part.len()).collect();
            let lower = form.bytes().all(|byte| matches!(byte, b'0'..=b'9' | b'a'..=b'f' | b'-'));
            let value = u128::from_str_radix(&parts.concat(), 16).ok()?;
            (lengths == [8, 4, 4, 4, 12] && lower).then_some(Subject::Uuid(Uuid::new(value)?))
        }
        _ => None,
    }
}

/// Wildcards and the set; each item has to follow the earlier ones.
fn read_resources(resources: &str) -> Option<(u8, u64)> {
    let (mut wildcards, mut set) = (0, 0);
    let mut last = 0;
    for item in resources.split_terminator(',') {
        let (name, value) = item.strip_prefix(r#"{""#)?.strip_suffix(r#""}"#)?.split_once(r#"":""#)?;
        let place = match (name, value) {
            ("href", name) => DIRECTORY.iter().find(|resource| resource.name == name)?.number + 1,
            ("wc", "+") => 100,
            ("wc", "-") => 101,
            ("wc", "*") => 102,
            _ => return None,
        };
        if place <= last {
            return None;
        }
        last = place;
        match place {
            100.. => wildcards |= 4 >> (place - 100),
            _ => set |= directory::set_bit(place - 1),
        }
    }
    Some((wildcards, set))
}

/// The rows that a text has.
fn written_of(rows: &[Access]) -> Vec<Access> {
    rows.iter().filter(|row| row.period.first == 0 && row.period.last == 0xFFFF_FFFF).cloned().collect()
}

#[test]
fn the_rows_can_be_read_back() {
    let mut random = Random::new(35);
    let mut left_out = 0;
    for _ in 0..2000 {
        let rows = generate::any_sound(&mut random).accesses;
        let text = text(&rows);
        assert!(text.bytes().all(|byte| byte.is_ascii_graphic()), "{text}");
        let written = written_of(&rows);
        left_out += rows.len() - written.len();
        assert_eq!(read(&text), Some(written), "{text}");
    }
    assert!(left_out > 2000, "{left_out}");
}

/// All row lists of which one is the other with a bit turned over.
fn a_bit_away(rows: &[Access]) -> Vec<Vec<Access>> {
    let stored = with_rows(rows.to_vec()).bytes();
    let bits = ACCESSES.start * 8..(ACCESSES.start + rows.len() * Access::BODY_SIZE) * 8;
    let flipped = bits.filter_map(|bit| {
        let mut stored = stored;
        stored[bit / 8] ^= 0x80 >> (bit % 8);
        Tables::read(&stored).ok()
    });
    flipped.map(|tables| tables.accesses).collect()
}

#[test]
fn a_bit_makes_another_text() {
    let mut random = Random::new(36);
    let (mut pairs, mut alike) = (0, 0);
    for _ in 0..100 {
        let mut rows = generate::any_sound(&mut random).accesses;
        rows.truncate(3);
        for other in a_bit_away(&rows) {
            assert_ne!(rows, other);
            let differ = written_of(&rows) != written_of(&other);
            assert_eq!(text(&rows) != text(&other), differ);
            pairs += usize::from(differ);
            alike += usize::from(!differ);
        }
    }
    assert!(pairs > 5_000 && alike > 1000, "{pairs} {alike}");
}

#[test]
fn a_list_and_the_front_of_it() {
    let mut random = Random::new(37);
    for _ in 0..300 {
        let rows = written_of(&generate::any_sound(&mut random).accesses);
        for kept in 0..rows.len() {
            assert_ne!(text(&rows[..kept]), text(&rows));
            assert_ne!(text(&rows[kept + 1..]), text(&rows));
        }
        // Two rows swapped.
        for place in 1..rows.len() {
            let mut swapped = rows.clone();
            swapped.swap(place - 1, place);
            assert_ne!(text(&swapped), text(&rows));
        }
    }
}

#[test]
fn different_rows_never_give_the_same_text() {
    // Every list is compared with all the earlier ones.
    let mut seen: HashMap<String, Vec<Access>> = HashMap::new();
    let mut check = |rows: &[Access]| {
        let written = written_of(rows);
        let held = seen.entry(text(rows)).or_insert_with(|| written.clone());
        assert_eq!(*held, written);
    };
    let mut random = Random::new(38);
    for _ in 0..3000 {
        let rows = generate::any_sound(&mut random).accesses;
        // Short lists meet often.
        for kept in [0, 1, 2, rows.len()] {
            check(&rows[..kept.min(rows.len())]);
        }
    }
    let rows = [access(1, role(0, 1), 0, 0, &[]), access(11, role(1, 11), MAY_RETRIEVE | MAY_DELETE, STAR, &[WEIGHT])];
    for near in a_bit_away(&rows) {
        for nearer in a_bit_away(&near).into_iter().step_by(5) {
            check(&nearer);
        }
        check(&near);
    }
    assert!(seen.len() > 5_000, "{}", seen.len());
}
