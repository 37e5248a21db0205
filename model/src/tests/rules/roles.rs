//! Roles that a partner asserts, and check 22.

use super::*;
use crate::answers::{PERMITTED, ROLES_FULL};
use crate::directory::{ACL2, CRED, PSTAT, ROLES, TARE, WEIGHT, YARD};
use crate::record::{MAY_NOTIFY, MAY_RETRIEVE, MAY_UPDATE};
use crate::tables::{RESET, RFNOP};

/// In service, with a foreman in row 6 who has asserted these roles, the owner, and
/// a row that has asserted others.
fn with_foreman(shown: &[Asserted]) -> Tables {
    let mut tables = owned(State::Rfnop);
    tables.credentials.push(Credential { asserted: shown.to_vec(), ..credential(6, uuid(0x66)) });
    let others = vec![asserted(1, 7, 100), asserted(0, 7, 100)];
    tables.credentials.push(Credential { asserted: others, ..credential(7, uuid(0x66)) });
    tables
}

/// The outcome of row 6's showing a role.
fn show(tables: &Tables, clock: u32, shown: Asserted) -> Outcome {
    let record = compose(Verb::Update, ROLES, 6, &shown.bytes());
    judge(&Case { clock, capacity: 0, ..Case::new(&tables.bytes(), &record) })
}

#[test]
fn a_day_by_hand() {
    let tables = with_foreman(&[]);
    let at = 84 + 39;
    let places = |outcome: &Outcome| hex::write(&outcome.tables[at + 23..at + 39]);
    let outcome = show(&tables, 50, asserted(0x0102, 0x0304, 99));
    assert_eq!(
        (outcome.response.answer, outcome.response.permission, outcome.response.payload.len()),
        (PERMITTED, MAY_RETRIEVE | MAY_UPDATE, 0)
    );
    assert_eq!((outcome.response.reply.len(), outcome.response.store.clone(), outcome.response.links), (0, 0..0, 0));
    assert_eq!(places(&outcome), "0102030400000063 0000000000000000".replace(' ', ""));
    // Nothing else changed.
    let mut expected = tables.bytes();
    expected[at + 23..at + 31].copy_from_slice(&hex::literal("0102030400000063"));
    assert_eq!(outcome.tables, expected);
    // A second one, then an equal one where it was, then a third.
    let tables = Tables::read(&expected).expect("sound");
    let outcome = show(&tables, 60, asserted(0, 7, u32::MAX));
    assert_eq!(places(&outcome), "0102030400000063 00000007ffffffff".replace(' ', ""));
    let tables = Tables::read(&outcome.tables).expect("sound");
    let outcome = show(&tables, 99, asserted(0x0102, 0x0304, 200));
    assert_eq!(places(&outcome), "01020304000000c8 00000007ffffffff".replace(' ', ""));
    let tables = Tables::read(&outcome.tables).expect("sound");
    let outcome = show(&tables, 200, asserted(0x0304, 0x0102, 300));
    assert_eq!((outcome.response.answer, outcome.response.permission), (ROLES_FULL, 0));
    assert_eq!(outcome.tables, tables.bytes());
    // A second later the first has expired: the other moves up.
    let outcome = show(&tables, 201, asserted(0x0304, 0x0102, 300));
    assert_eq!((outcome.response.answer, outcome.response.permission), (PERMITTED, MAY_RETRIEVE | MAY_UPDATE));
    assert_eq!(places(&outcome), "00000007ffffffff 030401020000012c".replace(' ', ""));
}

#[test]
fn expired_roles_go_first() {
    let after = |shown: &[Asserted], clock, next| {
        let outcome = show(&with_foreman(shown), clock, next);
        assert_eq!(outcome.response.answer, PERMITTED);
        let tables = Tables::read(&outcome.tables).expect("sound");
        // The other rows keep theirs, over or not.
        assert_eq!(tables.credentials[2], with_foreman(&[]).credentials[2]);
        tables.credentials[1].asserted.clone()
    };
    let (seven, eight, nine) = (asserted(1, 7, 20), asserted(1, 8, 30), asserted(1, 9, 40));
    assert_eq!(after(&[], 0, seven), [seven]);
    assert_eq!(after(&[seven], 20, eight), [seven, eight]);
    assert_eq!(after(&[seven], 21, eight), [eight]);
    assert_eq!(after(&[seven, eight], 21, nine), [eight, nine]);
    assert_eq!(after(&[eight, seven], 21, nine), [eight, nine]);
    assert_eq!(after(&[eight, seven], 31, nine), [nine]);
    // An equal role: where it was while it is in force, else at the end.
    let later = asserted(1, 7, 50);
    assert_eq!(after(&[seven, eight], 20, later), [later, eight]);
    assert_eq!(after(&[eight, seven], 20, later), [eight, later]);
    assert_eq!(after(&[seven, eight], 21, later), [eight, later]);
    // An earlier last second counts too, also a second that is past.
    let earlier = asserted(1, 7, 3);
    assert_eq!(after(&[seven, eight], 10, earlier), [earlier, eight]);
    assert_eq!(after(&[], 10, earlier), [earlier]);
    // It is dropped with the next, and takes no room from it.
    assert_eq!(after(&[earlier, eight], 10, nine), [eight, nine]);
    // If the clock goes back, a role not yet removed counts again.
    assert_eq!(show(&with_foreman(&[earlier, eight]), 3, nine).response.answer, ROLES_FULL);
    assert_eq!(show(&with_foreman(&[seven, eight]), 0, nine).response.answer, ROLES_FULL);
    assert_eq!(show(&with_foreman(&[asserted(1, 7, u32::MAX), eight]), u32::MAX, nine).response.answer, PERMITTED);
}

#[test]
fn a_role_fits_while_it_is_shown() {
    let permission = |tables: &Tables, clock, resource| {
        let record = compose(Verb::Retrieve, resource, 6, &[]);
        let outcome = judge(&Case { clock, ..Case::new(&tables.bytes(), &record) });
        // Reading removes nothing.
        assert_eq!(outcome.tables, tables.bytes());
        assert_eq!(outcome.response.answer, if outcome.response.permission == 0 { 8 } else { 0 });
        (outcome.response.permission, outcome.response.links)
    };
    let mut tables = with_foreman(&[asserted(1, 8, 30), asserted(1, 7, 20)]);
    tables.accesses.push(access(1, role(1, 7), MAY_RETRIEVE, 0, &[WEIGHT, ACL2]));
    tables.accesses.push(with_period(
        access(2, role(1, 8), MAY_RETRIEVE | MAY_NOTIFY, 0, &[WEIGHT, TARE, YARD]),
        10,
        40,
    ));
    tables.accesses.push(access(3, AUTH, MAY_RETRIEVE, 0, &[YARD]));
    let weight = [0, 9, 10, 20, 21, 30, 31, 40].map(|clock| permission(&tables, clock, 8).0);
    assert_eq!(weight, [2, 2, 18 | 2, 18 | 2, 18, 18, 0, 0]);
    let acl2 = [0, 20, 21].map(|clock| permission(&tables, clock, 3).0);
    assert_eq!(acl2, [2, 2, 0]);
    // For the links of the yard too.
    let yard = [0, 10, 20, 21, 30, 31].map(|clock| permission(&tables, clock, 16));
    let set = |links: &[u8]| links.iter().fold(0, |set, &link| set | directory::set_bit(link));
    let both = (18, set(&[WEIGHT, TARE]));
    assert_eq!(yard, [(2, set(&[WEIGHT])), both, both, both, both, (2, 0)]);
}

#[test]
fn roles_are_replied_to_their_holder() {
    let mut tables = with_foreman(&[asserted(0x0102, 0x0304, 20), asserted(0, 7, 10)]);
    let reply = |tables: &Tables, sender, clock, capacity| {
        let record = compose(Verb::Retrieve, ROLES, sender, &[]);
        let outcome = judge(&Case { clock, capacity, ..Case::new(&tables.bytes(), &record) });
        assert_eq!(outcome.tables, tables.bytes());
        (outcome.response.answer, hex::write(&outcome.response.reply))
    };
    let (first, second) = ("0102030400000014", "000000070000000a");
    assert_eq!(reply(&tables, 6, 0, 16), (0, format!("{first}{second}")));
    assert_eq!(reply(&tables, 6, 10, 99), (0, format!("{first}{second}")));
    assert_eq!(reply(&tables, 6, 11, 99), (0, first.into()));
    assert_eq!(reply(&tables, 6, 20, 8), (0, first.into()));
    assert_eq!(reply(&tables, 6, 21, 0), (0, String::new()));
    // The buffer has to fit only the roles in force.
    assert_eq!(reply(&tables, 6, 10, 15), (15, String::new()));
    assert_eq!(reply(&tables, 6, 11, 7), (15, String::new()));
    // To others their own, and none to nobody.
    assert_eq!(reply(&tables, 5, 0, 0), (0, String::new()));
    assert_eq!(reply(&tables, 7, 0, 99), (0, "0001000700000064 0000000700000064".replace(' ', "")));
    assert_eq!(reply(&tables, 0, 0, 99).0, 8);
    tables.accesses.push(access(1, ANON, MAY_RETRIEVE, 0, &[ROLES]));
    assert_eq!(reply(&tables, 0, 0, 0), (0, String::new()));
    // An OBSERVE has none, and the credentials do not show them.
    let observed = judged(&tables.bytes(), &compose(Verb::Observe, ROLES, 6, &[]));
    assert_eq!((observed.response.answer, observed.response.reply.len()), (0, 0));
    let credentials = retrieve(&tables, CRED, 5, 2000).response.reply;
    assert_eq!(credentials, retrieve(&with_foreman(&[]), CRED, 5, 2000).response.reply);
    assert_eq!(credentials.len(), 16 + 3 * 23);
}

#[test]
fn replacing_or_deleting_a_row_drops_its_roles() {
    let shown = [asserted(1, 7, 20), asserted(1, 8, u32::MAX)];
    let mut tables = with_foreman(&shown);
    tables.state = State::Rfpro;
    let others = tables.credentials[2].clone();
    // By the very body that stored it.
    for body in [tables.credentials[1].bytes(), tables.credentials[1].short_body()] {
        let left = after(&tables, &compose(Verb::Update, CRED, 5, &body));
        assert_eq!(left.credentials[1], credential(6, uuid(0x66)));
        assert_eq!(left.credentials[2], others);
    }
    let left = after(&tables, &compose(Verb::Delete, CRED, 5, &[0, 6]));
    assert_eq!(left.credentials, [credential(5, uuid(0x11)), others.clone()]);
    // One that comes back has none.
    let back = after(&left, &compose(Verb::Update, CRED, 5, &credential(6, uuid(0x66)).bytes()));
    assert_eq!(back.credentials, [credential(5, uuid(0x11)), others.clone(), credential(6, uuid(0x66))]);
    let left = after(&tables, &compose(Verb::Delete, CRED, 5, &[0x66; 16]));
    assert_eq!(left.credentials, [credential(5, uuid(0x11))]);
    // A row that moves up keeps its own.
    let left = after(&tables, &compose(Verb::Delete, CRED, 5, &[0, 5]));
    assert_eq!(left.credentials[0].asserted, shown);
    // A reset, by default rows too.
    let defaults = Defaults::of(&tables.credentials[1..2], &[]);
    let record = compose(Verb::Update, PSTAT, 5, &target_body(RESET));
    let outcome = judge(&Case { defaults, ..Case::new(&tables.bytes(), &record) });
    let fresh = Tables::read(&outcome.tables).expect("sound");
    assert_eq!(fresh.credentials, [credential(6, uuid(0x66))]);
    // All else keeps them.
    for record in [
        compose(Verb::Update, PSTAT, 5, &target_body(RFNOP)),
        compose(Verb::Update, CRED, 5, &credential(9, uuid(0x66)).bytes()),
        compose(Verb::Update, ACL2, 5, &access(9, ANON, MAY_RETRIEVE, 0, &[]).bytes()),
        compose(Verb::Delete, ACL2, 5, &[]),
    ] {
        assert_eq!(after(&tables, &record).credentials[..3], tables.credentials[..]);
    }
}

#[test]
fn only_the_senders_own_places_are_written() {
    let mut random = Random::new(19);
    let (mut written, mut refused) = (0, 0);
    for _ in 0..6_000 {
        let mut tables = generate::any_sound(&mut random);
        tables.state = State::Rfnop;
        tables.device_owner = Some(uuid(0x11));
        let held = numbers(&tables.credentials);
        if held.is_empty() {
            continue;
        }
        let before = tables.bytes();
        let clock = generate::clock(&mut random, &before);
        let sender = random.pick(&held);
        let place = 84 + 39 * held.iter().position(|&number| number == sender).expect("held");
        let role = random.pick(&[0x0001, 0x0007, 0x0100_0001]) as u32;
        let last = random.pick(&[0, clock, u32::MAX]);
        let body = [role.to_be_bytes(), last.to_be_bytes()].concat();
        let record = compose(Verb::Update, ROLES, sender, &body);
        let outcome = judge(&Case { clock, ..Case::new(&before, &record) });
        // The rule once more, over the bytes.
        let places = &before[place + 23..place + 39];
        let second = |at: usize| u32::from_be_bytes(places[at..at + 4].try_into().expect("four bytes"));
        let mut in_force: Vec<(u32, u32)> = Vec::new();
        for at in [0, 8] {
            if second(at) & 0xFFFF != 0 && second(at + 4) >= clock {
                in_force.push((second(at), second(at + 4)));
            }
        }
        let answer = match in_force.iter().position(|&(held, _)| held == role) {
            Some(at) => {
                in_force[at].1 = last;
                0
            }
            None if in_force.len() == 2 => 22,
            None => {
                in_force.push((role, last));
                0
            }
        };
        let mut expected = before;
        if answer == PERMITTED {
            let bytes: Vec<u8> =
                in_force.iter().flat_map(|(role, last)| [role.to_be_bytes(), last.to_be_bytes()].concat()).collect();
            expected[place + 23..place + 39].fill(0);
            expected[place + 23..place + 23 + bytes.len()].copy_from_slice(&bytes);
            written += 1;
        } else {
            refused += 1;
        }
        assert_eq!(outcome.response.answer, answer);
        assert_eq!(outcome.tables, expected);
    }
    assert!(written > 1000 && refused > 100, "{written} {refused}");
}
