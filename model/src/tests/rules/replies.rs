//! Replies of security resources, and check 15.

use super::*;
use crate::answers::{NO_ROOM, PERMITTED};
use crate::directory::{ACL2, CRED, DOXM, PSTAT, WEIGHT};
use crate::record::{MAY_ALL, MAY_CREATE, MAY_RETRIEVE};
use crate::tables::{PLUS, STAR};

#[test]
fn replies_by_hand() {
    let mut tables = owned(State::Rfnop);
    tables.row_owners = [None, Some(uuid(0xA1)), Some(uuid(0xA2)), Some(uuid(0xA3))];
    let role = Role { authority: 0x0708, number: 0x0304 };
    tables.credentials.push(Credential { role: Some(role), kind: 32, ..credential(0x0102, uuid(0x22)) });
    tables.accesses.push(access(0x0506, ANON, MAY_RETRIEVE, PLUS, &[WEIGHT]));
    let period = Period { first: 0x0102_0304, last: 0x0506_0708 };
    let role = Subject::Role(Role { authority: 0x0A0B, number: 7 });
    tables.accesses.push(Access { period, ..access(1, role, 31, 0, &[]) });
    let reply = |resource| {
        let outcome = retrieve(&tables, resource, 5, 2000);
        assert_eq!((outcome.response.answer, outcome.response.permission), (PERMITTED, MAY_ALL));
        assert_eq!(outcome.response.payload, 0..0);
        assert_eq!(outcome.tables, tables.bytes());
        outcome.response.reply
    };
    let many = |byte: &str| byte.repeat(16);
    assert_eq!(reply(0), hex::literal(&format!("80 {} {}", many("11"), many("00"))));
    assert_eq!(reply(1), hex::literal(&format!("60 {}", many("a1"))));
    let credentials = format!("{} 0005 {} 0000 0000 10 0102 {} 0304 0708 80", many("a2"), many("11"), many("22"));
    assert_eq!(reply(2), hex::literal(&credentials));
    let anon = "0506 8500 0080000000000000 00000000000000000000000000000000 00000000ffffffff";
    let role = "0001 7e00 0000000000000000 0000000000000000000000000a0b0007 0102030405060708";
    assert_eq!(reply(3), hex::literal(&format!("{} {anon} {role}", many("a3"))));
    // Nothing owned, nothing held.
    let lengths =
        [DOXM, PSTAT, CRED, ACL2].map(|resource| retrieve(&Tables::fresh(), resource, 0, 2000).response.reply.len());
    assert_eq!(lengths, [33, 17, 16, 16]);
    assert_eq!(retrieve(&Tables::fresh(), PSTAT, 0, 2000).response.reply[0], 0x20);
    assert_eq!(retrieve(&Tables::fresh(), DOXM, 0, 2000).response.reply, [0; 33]);
}

#[test]
fn the_longest_reply() {
    let tables = Tables {
        credentials: (1..=24).map(|number| credential(number, uuid(0x22))).collect(),
        accesses: (1..=32).map(|number| access(number, ANON, MAY_CREATE, STAR, &[])).collect(),
        ..Tables::fresh()
    };
    assert_eq!(REPLY_MAX, 1168);
    assert_eq!(retrieve(&tables, CRED, 0, 2000).response.reply.len(), 568);
    assert_eq!(retrieve(&tables, ACL2, 0, 1168).response.reply.len(), 1168);
    assert_eq!(retrieve(&tables, ACL2, 0, 1167).response.answer, NO_ROOM);
}

#[test]
fn a_buffer_shorter_than_the_reply() {
    let mut random = Random::new(11);
    for _ in 0..300 {
        let tables = Tables { device_owner: None, state: State::Rfotm, ..generate::any_sound(&mut random) };
        for resource in DOXM..=ACL2 {
            let fits = retrieve(&tables, resource, 0, 2000).response.reply.len();
            for capacity in [0, 1, fits - 1, fits, fits + 1, 1999] {
                let outcome = retrieve(&tables, resource, 0, capacity);
                let expected = if capacity < fits { (15, 0, 0) } else { (0, 31, fits) };
                assert_eq!(
                    (outcome.response.answer, outcome.response.permission, outcome.response.reply.len()),
                    expected
                );
                assert_eq!(outcome.tables, tables.bytes());
            }
        }
    }
}

#[test]
fn stored_rows_of_a_reply_are_the_same_rows() {
    let mut random = Random::new(12);
    for _ in 0..300 {
        let tables = Tables { device_owner: None, state: State::Rfotm, ..generate::any_sound(&mut random) };
        let mut copy = Tables::fresh();
        for body in retrieve(&tables, CRED, 0, 2000).response.reply[16..].chunks(23) {
            copy = after(&copy, &compose(Verb::Update, CRED, 0, body));
        }
        for body in retrieve(&tables, ACL2, 0, 2000).response.reply[16..].chunks(36) {
            copy = after(&copy, &compose(Verb::Update, ACL2, 0, body));
        }
        // Except for the roles that partners have shown.
        let bare = tables.credentials.iter().map(|row| Credential { asserted: Vec::new(), ..row.clone() });
        assert!(bare.eq(copy.credentials));
        assert_eq!(copy.accesses, tables.accesses);
    }
}

#[test]
fn only_a_permitted_retrieve_of_security_has_a_reply() {
    let mut random = Random::new(13);
    let mut replies = 0;
    for _ in 0..8_000 {
        let tables = generate::any_sound(&mut random).bytes();
        let record = generate::record(&mut random, generate::Style::Mixed, &tables, 0);
        let outcome = judged(&tables, &record);
        let retrieves = record.len() == HEADER_SIZE && Header::read(&record).verb == Verb::Retrieve as u8;
        match directory::find(if retrieves { Header::read(&record).resource } else { 63 }).map(|found| found.kind) {
            // Not every partner has shown a role.
            Some(Kind::Security(Security::Roles)) => assert_eq!(outcome.response.reply.len() % 8, 0),
            Some(Kind::Security(_)) => {
                assert_eq!(outcome.response.reply.is_empty(), outcome.response.answer != PERMITTED)
            }
            _ => assert!(outcome.response.reply.is_empty()),
        }
        replies += usize::from(!outcome.response.reply.is_empty());
        // Another record needs no buffer.
        let without = judge(&Case { capacity: 0, ..Case::new(&tables, &record) });
        if outcome.response.reply.is_empty() {
            assert_eq!(without, outcome);
        } else {
            assert_eq!(without.response.answer, NO_ROOM);
        }
    }
    assert!(replies > 200);
    // An OBSERVE, too.
    let observed = judge(&Case { capacity: 0, ..Case::new(&fresh_bytes(), &compose(Verb::Observe, ACL2, 0, &[])) });
    assert_eq!((observed.response.answer, observed.response.reply.len()), (0, 0));
}

#[test]
fn all_other_checks_come_before_the_buffer() {
    let no_room = |tables: &Tables, record: &[u8]| {
        judge(&Case { capacity: 0, ..Case::new(&tables.bytes(), record) }).response.answer
    };
    let tables = owned(State::Rfpro);
    assert_eq!(no_room(&tables, &compose(Verb::Retrieve, ACL2, 9, &[])), 7);
    assert_eq!(no_room(&tables, &compose(Verb::Retrieve, ACL2, 0, &[])), 8);
    assert_eq!(no_room(&tables, &compose(Verb::Retrieve, ACL2, 5, &[0])), 10);
    assert_eq!(no_room(&tables, &compose(Verb::Retrieve, ACL2, 5, &[])), 15);
}
