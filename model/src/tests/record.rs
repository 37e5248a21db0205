//! Tests of headers and bodies.

use super::*;
use crate::directory::PSTAT;

#[test]
fn headers_read_and_write_alike() {
    for first in 0..=255 {
        for second in 0..=255 {
            let bytes = [first, second, 0x12, 0x34];
            assert_eq!(Header::read(&bytes).with_body(&[]), bytes);
        }
    }
}

#[test]
fn a_header_by_hand() {
    let header = Header::read(&[0x50, 0x40, 0x00, 0x05]);
    assert_eq!(header, Header { verb: 2, connection: Connection::AuthCrypt, resource: 1, zeros: 0, credential: 5 });
    assert_eq!(compose(Verb::Update, PSTAT, 5, &[0x40]), [0x50, 0x40, 0x00, 0x05, 0x40]);
}

#[test]
fn target_bodies() {
    let accepted: Vec<u8> =
        (0..=255).filter(|&byte| Action::read(Security::Pstat, Verb::Update, &[byte]).is_some()).collect();
    assert_eq!(accepted, [0x00, 0x20, 0x40, 0x60, 0x80]);
}

#[test]
fn device_owner_bodies() {
    let read = |first, uuid: u8| {
        let mut body = vec![uuid; 17];
        body[0] = first;
        Action::read(Security::Doxm, Verb::Update, &body)
    };
    assert_eq!(read(0x00, 0), Some(Action::SetDeviceOwner(None)));
    assert!(matches!(read(0x80, 0x11), Some(Action::SetDeviceOwner(Some(_)))));
    assert_eq!(read(0x80, 0), None);
    assert_eq!(read(0x00, 0x11), None);
    assert_eq!(read(0x81, 0x11), None);
    assert_eq!(read(0x40, 0), None);
}

#[test]
fn body_lengths_of_updates() {
    let good = |which| -> Vec<usize> {
        let body = |length: usize| {
            let mut body = vec![0; length];
            match length {
                17 => body = device_owner_body(Uuid::new(9)),
                8 => body[3] = 1,
                21 | 23 => body[1..3].fill(1),
                28 | 36 => body[1..3].copy_from_slice(&[1, 0x80]),
                _ => {}
            }
            body
        };
        (0..=252).filter(|&length| Action::read(which, Verb::Update, &body(length)).is_some()).collect()
    };
    assert_eq!(good(Security::Doxm), [16, 17]);
    assert_eq!(good(Security::Pstat), [1, 16]);
    assert_eq!(good(Security::Cred), [16, 21, 23]);
    assert_eq!(good(Security::Acl2), [16, 28, 36]);
    assert_eq!(good(Security::Roles), [8]);
}

#[test]
fn verbs_of_each_resource() {
    let verbs = |which| -> Vec<u8> {
        Verb::ALL.into_iter().filter(|&verb| offered(which, verb)).map(|verb| verb as u8).collect()
    };
    assert_eq!(verbs(Security::Doxm), [1, 2, 4]);
    assert_eq!(verbs(Security::Pstat), [1, 2, 4]);
    assert_eq!(verbs(Security::Cred), [1, 2, 3, 4]);
    assert_eq!(verbs(Security::Acl2), [1, 2, 3, 4]);
    assert_eq!(verbs(Security::Roles), [1, 2, 4]);
}

#[test]
fn body_lengths_of_deletes() {
    let good = |which, byte| -> Vec<usize> {
        let reads = |length| Action::read(which, Verb::Delete, &vec![byte; length]).is_some();
        (0..=252).filter(|&length| reads(length)).collect()
    };
    assert_eq!(good(Security::Cred, 1), [0, 2, 16]);
    assert_eq!(good(Security::Acl2, 1), [0, 2]);
    assert_eq!(good(Security::Roles, 1), []);
    assert_eq!(good(Security::Cred, 0), [0]);
    assert_eq!(good(Security::Acl2, 0), [0]);
}
