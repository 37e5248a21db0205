//! Endpoints, check 16, and the links of the yard.

use super::*;
use crate::answers::{NOT_PERMITTED, NO_CREDENTIAL, NO_ENDPOINT, PERMITTED, UNKNOWN_RESOURCE};
use crate::directory::{ACL2, DOXM, YARD};
use crate::record::MAY_ALL;
use crate::tables::STAR;

#[test]
fn a_connection_without_an_endpoint() {
    // Everything is allowed to everybody, and still.
    let broad = vec![access(1, ANON, MAY_ALL, STAR, &[]), access(2, AUTH, MAY_ALL, STAR, &[])];
    for state in State::ALL {
        for accesses in [broad.clone(), Vec::new()] {
            let tables = Tables { accesses, ..owned(state) };
            let otherwise = match (tables.accesses.is_empty(), state) {
                (true, _) => 8,
                (false, State::Rfnop) => 0,
                (false, _) => 11,
            };
            for verb in Verb::ALL {
                for (resource, secure, unsecure) in [
                    (8, true, true),
                    (9, true, false),
                    (10, true, false),
                    (11, true, false),
                    (12, true, true),
                    (13, true, false),
                    (14, false, true),
                    (16, true, false),
                ] {
                    for (sender, endpoint) in [(5, secure), (0, unsecure)] {
                        let outcome = judged(&tables.bytes(), &compose(verb, resource, sender, &[1, 2]));
                        let expected = if endpoint { otherwise } else { 16 };
                        assert_eq!(outcome.response.answer, expected, "{state:?} {verb:?} {resource} from {sender}");
                        let permitted = expected == 0;
                        assert_eq!(outcome.response.permission, if permitted { 31 } else { 0 });
                        assert_eq!(outcome.response.payload, if permitted { 4..6 } else { 0..0 });
                    }
                }
            }
        }
    }
}

#[test]
fn the_set_holds_the_links_whose_own_record_is_permitted() {
    let mut random = Random::new(17);
    let mut sizes = [0; 8];
    for turn in 0..400 {
        let mut tables = Tables { state: State::Rfnop, ..generate::any_sound(&mut random) };
        tables.device_owner = Some(uuid(0x11));
        // Often the yard is open, so that the links decide.
        if turn % 2 == 0 {
            tables.accesses.truncate(31);
            tables.accesses.push(access(0xABCD, AUTH, MAY_ALL, 0, &[YARD]));
        }
        let stored = tables.bytes();
        let clock = generate::clock(&mut random, &stored);
        let answer = |record: &[u8]| judge(&Case { clock, ..Case::new(&stored, record) });
        for sender in numbers(&tables.credentials).into_iter().take(4).chain([0, 0x7777]) {
            for verb in Verb::ALL {
                let outcome = answer(&compose(verb, YARD, sender, &[1, 2, 3]));
                let asked = outcome.response.answer == PERMITTED && matches!(verb, Verb::Retrieve | Verb::Update);
                let mut expected = 0;
                let mut size = 0;
                for link in 8..=14 {
                    let own = answer(&compose(verb, link, sender, &[1, 2, 3]));
                    if asked && own.response.answer == PERMITTED {
                        expected |= 0x8000_0000_0000_0000 >> link;
                        size += 1;
                    }
                    assert_eq!((own.response.links, own.response.link_count()), (0, 0));
                }
                assert_eq!((outcome.response.links, outcome.response.link_count()), (expected, size));
                sizes[size] += usize::from(asked);
            }
        }
    }
    assert!(sizes[..7].iter().all(|&count| count > 20) && sizes[7] == 0, "{sizes:?}");
}

#[test]
fn only_a_permitted_poll_has_a_set() {
    let mut random = Random::new(18);
    let mut sets = 0;
    for _ in 0..10_000 {
        let tables = generate::any_sound(&mut random).bytes();
        let record = generate::record(&mut random, generate::Style::Mixed, &tables, 0);
        let outcome = judged(&tables, &record);
        assert_eq!(outcome.response.link_count(), outcome.response.links.count_ones() as usize);
        if outcome.response.links != 0 {
            sets += 1;
            let header = Header::read(&record);
            assert_eq!((outcome.response.answer, header.resource), (0, 16));
            assert!(header.verb == Verb::Retrieve as u8 || header.verb == Verb::Update as u8);
            // A poll needs no buffer and changes nothing.
            assert!(outcome.response.reply.is_empty() && outcome.response.store.is_empty() && outcome.tables == tables);
            assert_eq!(outcome.response.payload, 4..record.len());
        }
    }
    assert!(sets > 20, "{sets}");
}

#[test]
fn security_resources_are_exempt() {
    for resource in DOXM..=ACL2 {
        assert_eq!(judged(&fresh_bytes(), &compose(Verb::Retrieve, resource, 0, &[])).response.answer, PERMITTED);
        assert_eq!(
            judged(&owned(State::Rfnop).bytes(), &compose(Verb::Retrieve, resource, 0, &[])).response.answer,
            NOT_PERMITTED
        );
        assert_eq!(
            judged(&owned(State::Rfnop).bytes(), &compose(Verb::Retrieve, resource, 5, &[])).response.answer,
            PERMITTED
        );
    }
}

#[test]
fn the_endpoint_comes_after_the_credential_row() {
    let answer = |verb, resource, sender| judged(&owned(State::Rfnop).bytes(), &compose(verb, resource, sender, &[]));
    assert_eq!(answer(Verb::Retrieve, 14, 9).response.answer, NO_CREDENTIAL);
    assert_eq!(answer(Verb::Retrieve, 14, 5).response.answer, NO_ENDPOINT);
    assert_eq!(answer(Verb::Retrieve, 9, 0).response.answer, NO_ENDPOINT);
    assert_eq!(answer(Verb::Retrieve, 9, 5).response.answer, NOT_PERMITTED);
    assert_eq!(answer(Verb::Retrieve, 14, 0).response.answer, NOT_PERMITTED);
    assert_eq!(answer(Verb::Retrieve, 15, 0).response.answer, UNKNOWN_RESOURCE);
}
