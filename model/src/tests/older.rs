//! Tests of the conversion of older lists.

use super::*;
use crate::answers::{PERMITTED, TEST_EXCESSIVE};
use crate::case::{Case, GUARD};
use crate::directory::{DIRECTORY, LAMP, WEIGHT};
use crate::examples::{access, owned, uuid, ANON, AUTH};
use crate::files::{self, Converted, File};
use crate::generate;
use crate::hex;
use crate::provisioning::{test, Tested};
use crate::random::Random;
use crate::record::{MAY_RETRIEVE, MAY_UPDATE};
use crate::rules::{effective_permission, Sender};
use crate::tables::{State, Tables};

fn old(subject: Option<Uuid>, permission: u8, resources: &[u8]) -> OldRow {
    OldRow { subject, permission, set: resources.iter().fold(0, |set, &number| set | directory::set_bit(number)) }
}

fn file(rows: &[OldRow]) -> Vec<u8> {
    rows.iter().flat_map(OldRow::bytes).collect()
}

/// The answer to a file with a buffer of this capacity.
fn answer(bytes: &[u8], capacity: usize) -> u8 {
    Converted::expected(&File { bytes: bytes.to_vec(), capacity }).answer
}

#[test]
fn a_file_by_hand() {
    let (eleven, nil) = ("11".repeat(16), "00".repeat(16));
    // The UUID may read and update the weight, anybody may read weight and
    // lamp, the UUID may do all on no resource.
    let bytes = hex::literal(&format!(
        "{eleven} 30 0080000000000000
         {nil} 10 0088000000000000
         {eleven} f8 0000000000000000"
    ));
    let every_second = "00000000 ffffffff";
    let expected = hex::literal(&format!(
        "0001 0c00 0080000000000000 {eleven} {every_second}
         0002 8400 0088000000000000 {:0>32} {every_second}
         0003 8400 0088000000000000 {:0>32} {every_second}
         0004 3e00 0000000000000000 {eleven} {every_second}",
        1, 0
    ));
    let rows = convert(&bytes).expect("converted");
    assert_eq!(join(&rows), expected);
    assert_eq!(rows[0], access(1, Subject::Uuid(uuid(0x11)), MAY_RETRIEVE | MAY_UPDATE, 0, &[WEIGHT]));
    assert_eq!(
        rows[1..3],
        [access(2, AUTH, MAY_RETRIEVE, 0, &[WEIGHT, LAMP]), access(3, ANON, MAY_RETRIEVE, 0, &[WEIGHT, LAMP])]
    );
    let mut buffer = vec![0xAA; 4 * 36 + 5];
    assert_eq!(write(&bytes, &mut buffer), Ok(4 * 36));
    assert_eq!(buffer, [&expected[..], &[0xAA; 5]].concat());
}

#[test]
fn an_empty_file() {
    assert_eq!(convert(&[]), Ok(vec![]));
    for capacity in [0, 1, 36] {
        let seen = Converted::expected(&File { bytes: vec![], capacity });
        assert_eq!(seen, Converted { answer: 0, length: 0, buffer: Case::pattern(capacity + GUARD) });
    }
}

#[test]
fn lengths_and_bits() {
    let rows = file(&vec![old(Some(uuid(0x22)), 2, &[8]); 34]);
    for length in 0..=rows.len() {
        let expected = match length {
            _ if length % 25 != 0 => 23,
            0..=800 => 0,
            _ => 24,
        };
        assert_eq!(answer(&rows[..length], 2000), expected, "{length}");
    }
    // Each single bit of a row.
    let good = old(Some(Uuid::MIN), 0, &[]).bytes();
    for bit in 0..200 {
        let mut row = good.clone();
        row[bit / 8] |= 0x80 >> (bit % 8);
        let expected = match bit {
            133..=135 => 23,
            136.. if directory::find(bit as u8 - 136).is_none() => 23,
            _ => 0,
        };
        assert_eq!(answer(&row, 100), expected, "{bit}");
    }
    // Any permission, 0 among them, on any known resource.
    for permission in 0..32 {
        for resource in &DIRECTORY {
            let row = old(None, permission, &[resource.number]);
            let made = [(1, AUTH), (2, ANON)];
            let made = made.map(|(number, subject)| access(number, subject, permission, 0, &[resource.number]));
            assert_eq!(convert(&row.bytes()), Ok(made.to_vec()));
        }
    }
}

#[test]
fn rows_made() {
    for uuids in 0..=34 {
        for stars in 0..=18 {
            let mut rows = vec![old(Some(uuid(0x22)), 2, &[8]); uuids];
            rows.extend(vec![old(None, 2, &[8]); stars]);
            let made = uuids + 2 * stars;
            let expected = if made > 32 { 24 } else { 0 };
            assert_eq!(answer(&file(&rows), 36 * made), expected, "{uuids} {stars}");
            if made > 0 {
                let short = if made > 32 { 24 } else { 25 };
                assert_eq!(answer(&file(&rows), 36 * made - 1), short, "{uuids} {stars}");
            }
        }
    }
}

#[test]
fn one_check_after_the_other() {
    let mut rows = file(&vec![old(None, 2, &[8]); 17]);
    assert_eq!(answer(&rows, 0), 24);
    // A bad row at the end of a file of too many.
    *rows.last_mut().unwrap() = 1;
    assert_eq!(answer(&rows, 0), 23);
    assert_eq!(answer(&rows, 2000), 23);
    assert_eq!(answer(&rows[..16 * 25], 16 * 72), 0);
    assert_eq!(answer(&rows[..16 * 25], 16 * 72 - 1), 25);
    assert_eq!(answer(&rows[..16 * 25 + 1], 0), 23);
    // Nothing is written.
    for (length, capacity, answer) in [(17 * 25, 2000, 23), (16 * 25, 1151, 25), (16 * 25, 0, 25)] {
        let seen = Converted::expected(&File { bytes: rows[..length].to_vec(), capacity });
        assert_eq!(seen, Converted { answer, length: 0, buffer: Case::pattern(capacity + GUARD) });
    }
}

/// What the rows of an older terminal gave, by the words of the request: a
/// UUID to who has that subject, "*" to anybody.
fn gave(rows: &[OldRow], sender: Sender, resource: u8) -> u8 {
    let theirs = |row: &&OldRow| match (row.subject, sender) {
        (None, _) => true,
        (Some(uuid), Sender::Partner(credential)) => uuid == credential.subject,
        (Some(_), Sender::Unauthenticated) => false,
    };
    let fitting = rows.iter().filter(theirs).filter(|row| row.set & directory::set_bit(resource) != 0);
    fitting.fold(0, |permission, row| permission | row.permission)
}

#[test]
fn every_sender_has_the_same() {
    let mut random = Random::new(71);
    let (mut compared, mut given) = (0, 0);
    while compared < 20_000 {
        let bytes = files::good_file(&mut random, 8);
        let rows: Vec<OldRow> = bytes.chunks(25).map(|row| OldRow::read(row).expect("good")).collect();
        let Ok(new) = convert(&bytes) else {
            continue;
        };
        let partners: Vec<_> = (0..6).map(|_| generate::credential(&mut random, &[])).collect();
        let before = owned(State::Rfnop);
        let after = Tables { accesses: new, ..before.clone() };
        for sender in partners.iter().map(Sender::Partner).chain([Sender::Unauthenticated]) {
            for resource in &DIRECTORY {
                for clock in [0, 1000, u32::MAX] {
                    // Beside what the sender has without any row.
                    let has = |tables| effective_permission(tables, sender, resource, clock);
                    let theirs = gave(&rows, sender, resource.number);
                    assert_eq!(has(&after), has(&before) | theirs);
                    compared += 1;
                    given += usize::from(theirs != 0);
                }
            }
        }
    }
    assert!(given > 2000, "{given}");
}

#[test]
fn the_rows_can_be_loaded() {
    let mut random = Random::new(72);
    let (mut accepted, mut opening) = (0, 0);
    for _ in 0..2000 {
        let count = random.between(0, 20);
        let bytes = files::good_file(&mut random, count);
        let Ok(rows) = convert(&bytes) else {
            continue;
        };
        // Storable, and numbered from 1.
        let tables = Tables { accesses: rows.clone(), ..Tables::fresh() };
        assert_eq!(Tables::read(&tables.bytes()), Ok(tables));
        assert!(rows.iter().map(|row| row.number).eq(1..=rows.len() as u16));
        // 21 is their only refusal, for a "*" row on a security resource.
        let old: Vec<OldRow> = bytes.chunks(25).map(|row| OldRow::read(row).expect("good")).collect();
        let opens = |row: &OldRow| row.subject.is_none() && row.permission & 13 != 0 && row.set >> (63 - 7) != 0;
        let Tested { answer, .. } = test(&join(&rows));
        assert_eq!(answer, if old.iter().any(opens) { 21 } else { 0 });
        accepted += usize::from(answer == PERMITTED);
        opening += usize::from(answer == TEST_EXCESSIVE);
    }
    assert!(accepted > 100 && opening > 100, "{accepted} {opening}");
}

#[test]
fn lines_read_and_write_alike() {
    let file = File { bytes: vec![0x00, 0x1F, 0xA0], capacity: 517 };
    assert_eq!(file.line(), "001fa0:517");
    assert_eq!(File::from_line(&file.line()), Ok(file));
    for line in ["", "00", "0:1", "0g:1", "00:", "00:65536", "00:1:1"] {
        assert!(File::from_line(line).is_err(), "{line}");
    }
}
