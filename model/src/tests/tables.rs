//! Tests of the tables: what is read is what was written, and each fault.

use super::*;
use crate::examples::credential;
use crate::generate;
use crate::hex;
use crate::random::Random;

#[test]
fn the_layout_has_no_gap() {
    assert_eq!((Credential::ROW_SIZE, Access::ROW_SIZE), (39, 36));
    assert_eq!(CREDENTIALS.len(), Credential::ROW_SIZE * Credential::CAPACITY);
    assert_eq!(ACCESSES.len(), Access::ROW_SIZE * Access::CAPACITY);
    assert_eq!(DEVICE_OWNER.start, ACCESS_COUNT + 1);
    assert_eq!(ROW_OWNERS.start, DEVICE_OWNER.end);
    assert_eq!(CREDENTIALS.start, ROW_OWNERS.end);
    assert_eq!(ACCESSES.start, CREDENTIALS.end);
    assert_eq!(ACCESSES.end, SIZE);
}

#[test]
fn fresh_is_one_and_zeros() {
    let mut expected = [0; SIZE];
    expected[0] = 1;
    assert_eq!(fresh_bytes(), expected);
    assert_eq!(Tables::read(&expected), Ok(Tables::fresh()));
}

#[test]
fn sound_tables_read_and_write_alike() {
    let mut random = Random::new(3);
    for _ in 0..2000 {
        let tables = generate::any_sound(&mut random);
        let stored = tables.bytes();
        let back = Tables::read(&stored).expect("sound");
        assert_eq!(back, tables);
        assert_eq!(back.bytes(), stored);
    }
}

#[test]
fn credential_types() {
    let row = Credential { kind: 0, ..credential(5, Uuid::MIN) };
    for mut body in [row.bytes(), row.short_body()] {
        let allowed: Vec<u8> = (0..=255)
            .filter(|&byte| {
                *body.last_mut().unwrap() = byte;
                Credential::from_body(&body).is_some()
            })
            .collect();
        assert_eq!(allowed, [0, 4, 8, 16, 32, 64, 128]);
    }
}

#[test]
fn credential_bodies_of_both_lengths() {
    let subject = "11".repeat(16);
    let body = |behind: &str| hex::literal(&format!("0005 {subject} {behind}"));
    let role = |behind: &str| Credential::from_body(&body(behind)).map(|row| row.role);
    let seven = |authority| Some(Some(Role { authority, number: 7 }));
    assert_eq!(role("0007 04"), seven(0));
    assert_eq!(role("0007 0000 04"), seven(0));
    assert_eq!(role("0007 0102 04"), seven(0x0102));
    assert_eq!(role("0000 04"), Some(None));
    assert_eq!(role("0000 0000 04"), Some(None));
    // An authority without a role.
    assert_eq!(role("0000 0001 04"), None);
    assert_eq!(role("0000 8000 04"), None);
    assert_eq!(role("0007 00 04"), None);
    assert_eq!(role("0007 0000 00 04"), None);
    // Both are stored in one form, which alone is a row's.
    let row = Credential::from_body(&body("0007 04")).unwrap();
    assert_eq!(row.bytes(), body("0007 0000 04"));
    assert_eq!(row.short_body(), body("0007 04"));
    assert_eq!(Credential::read(&row.bytes()), Some(row.clone()));
    assert_eq!(Credential::read(&row.short_body()), None);
}

#[test]
fn places_of_asserted_roles() {
    let body = format!("0005 {} 0007 0000 04", "11".repeat(16));
    let stored = |places: &str| hex::literal(&format!("{body} {places}"));
    let asserted = |places: &str| {
        let row = Credential::from_stored(&stored(places))?;
        assert_eq!(row.stored(), stored(places));
        assert_eq!(row.bytes(), hex::literal(&body));
        Some(row.asserted.iter().map(|shown| (shown.role.authority, shown.role.number, shown.last)).collect())
    };
    let none = "0000 0000 00000000";
    assert_eq!(asserted(&format!("{none} {none}")), Some(vec![]));
    assert_eq!(asserted(&format!("0102 0304 05060708 {none}")), Some(vec![(0x0102, 0x0304, 0x0506_0708)]));
    assert_eq!(asserted("0000 0007 00000000 0001 0007 ffffffff"), Some(vec![(0, 7, 0), (1, 7, u32::MAX)]));
    assert_eq!(asserted("0000 0007 00000009 0000 0008 00000009"), Some(vec![(0, 7, 9), (0, 8, 9)]));
    // The second asserted role without the first, and bytes without a role.
    assert_eq!(asserted(&format!("{none} 0000 0007 00000009")), None);
    for bytes in ["0001 0000 00000000", "8000 0000 00000000", "0000 0000 00000001", "0000 0000 80000000"] {
        assert_eq!(asserted(&format!("{bytes} {none}")), None);
        assert_eq!(asserted(&format!("{bytes} 0000 0007 00000009")), None);
        assert_eq!(asserted(&format!("0000 0007 00000009 {bytes}")), None);
    }
    // The same role twice; the last second does not make another of it.
    assert_eq!(asserted("0001 0007 00000009 0001 0007 00000009"), None);
    assert_eq!(asserted("0001 0007 00000009 0001 0007 00000008"), None);
    // The role of the body may be shown too.
    assert_eq!(asserted(&format!("0000 0007 00000009 {none}")), Some(vec![(0, 7, 9)]));
}

#[test]
fn roles_up_to_their_last_second() {
    let numbers = |clock| -> Vec<u16> {
        let shown = |number, last| Asserted { role: Role { authority: 1, number }, last };
        let role = Some(Role { authority: 0, number: 7 });
        let row = Credential { role, asserted: vec![shown(3, 20), shown(2, 10)], ..credential(5, Uuid::MIN) };
        row.roles(clock).map(|role| role.number).collect()
    };
    assert_eq!(numbers(0), [7, 3, 2]);
    assert_eq!(numbers(10), [7, 3, 2]);
    assert_eq!(numbers(11), [7, 3]);
    assert_eq!(numbers(20), [7, 3]);
    assert_eq!(numbers(21), [7]);
    assert_eq!(numbers(u32::MAX), [7]);
}

#[test]
fn bodies_of_asserted_roles() {
    let read = |body: &str| Asserted::from_body(&hex::literal(body));
    let shown = |authority, number, last| Some(Asserted { role: Role { authority, number }, last });
    assert_eq!(read("0000 0007 00000000"), shown(0, 7, 0));
    assert_eq!(read("0102 0304 05060708"), shown(0x0102, 0x0304, 0x0506_0708));
    assert_eq!(read("ffff ffff ffffffff"), shown(0xFFFF, 0xFFFF, u32::MAX));
    assert_eq!(read("0102 0000 05060708"), None);
    assert_eq!(read("0102 0304 050607"), None);
    assert_eq!(read("0102 0304 0506070809"), None);
    assert_eq!(read(""), None);
    let bytes = hex::literal("0102 0304 05060708");
    assert_eq!(shown(0x0102, 0x0304, 0x0506_0708).unwrap().bytes(), bytes);
}

#[test]
fn access_bodies_of_both_lengths() {
    let body = |behind: &str| hex::literal(&format!("0005 8400 0080000000000000 {} {behind}", "00".repeat(16)));
    let period = |behind: &str| Access::from_body(&body(behind)).map(|row| (row.period.first, row.period.last));
    assert_eq!(period(""), Some((0, u32::MAX)));
    assert_eq!(period("00000000 ffffffff"), Some((0, u32::MAX)));
    assert_eq!(period("00000102 01000000"), Some((0x0102, 0x0100_0000)));
    assert_eq!(period("00000000 00000000"), Some((0, 0)));
    assert_eq!(period("ffffffff ffffffff"), Some((u32::MAX, u32::MAX)));
    assert_eq!(period("00000007 00000007"), Some((7, 7)));
    assert_eq!(period("00000008 00000007"), None);
    assert_eq!(period("00000001 00000000"), None);
    assert_eq!(period("ffffffff fffffffe"), None);
    assert_eq!(period("00000000"), None);
    assert_eq!(period("00000000 ffffff"), None);
    assert_eq!(period("00000000 ffffffff 00"), None);
    // Both are stored in one form, which alone is a row's.
    let row = Access::from_body(&body("")).unwrap();
    assert_eq!(row.bytes(), body("00000000 ffffffff"));
    assert_eq!(row.short_body(), body(""));
    assert_eq!(Access::read(&row.bytes()), Some(row.clone()));
    assert_eq!(Access::read(&row.short_body()), None);
}

#[test]
fn periods_with_both_ends() {
    let holds = |first, last| -> Vec<u32> {
        let period = Period::new(first, last).unwrap();
        let clocks = [0, 1, 6, 7, 8, 9, 10, u32::MAX - 1, u32::MAX];
        clocks.into_iter().filter(|&clock| period.holds_at(clock)).collect()
    };
    assert_eq!(holds(7, 9), [7, 8, 9]);
    assert_eq!(holds(8, 8), [8]);
    assert_eq!(holds(0, 0), [0]);
    assert_eq!(holds(u32::MAX, u32::MAX), [u32::MAX]);
    assert_eq!(holds(1, u32::MAX - 1), [1, 6, 7, 8, 9, 10, u32::MAX - 1]);
    assert_eq!(holds(0, u32::MAX).len(), 9);
}

#[test]
fn roles_of_access_rows() {
    let subject = |last: &str| {
        let body = hex::literal(&format!("0005 4000 0000000000000000 {last:0>32}"));
        Access::from_body(&body).map(|row| row.subject)
    };
    let role = |authority, number| Some(Subject::Role(Role { authority, number }));
    assert_eq!(subject("0007"), role(0, 7));
    assert_eq!(subject("00010007"), role(1, 7));
    assert_eq!(subject("ffffffff"), role(0xFFFF, 0xFFFF));
    assert_eq!(subject("00070000"), None);
    assert_eq!(subject("0000"), None);
    assert_eq!(subject("100000007"), None);
    assert_eq!(subject("80000000000000000000000000000007"), None);
}
