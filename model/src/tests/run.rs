//! Tests of whole runs and their text.

use super::*;
use crate::directory::{ACL2, CRED, DOXM};
use crate::examples::{self, access, credential, uuid, ANON};
use crate::hex;
use crate::record::{compose, device_owner_body, Verb};
use crate::tables::{Access, Period, Row};

#[test]
fn the_worked_run() {
    assert_eq!(text(&examples::worked_run()), examples::WORKED_TEXT);
}

#[test]
fn short_inputs() {
    let whole = |input: &str| text(&hex::literal(input));
    assert_eq!(whole(""), "n answer perm state\n");
    // A clock cut short, one with no length, and one with half of it.
    for input in ["00", "0000", "000000", "00000000", "0000000000", "ffffffff", "ffffffff 00"] {
        assert_eq!(whole(input), "n answer perm state\ncut\n");
    }
    assert_eq!(whole("00000000 0000"), "n answer perm state\n1 2 0 1\n");
    assert_eq!(whole("00000000 0001"), "n answer perm state\ncut\n");
    assert_eq!(whole("00000000 0004 220000"), "n answer perm state\ncut\n");
    assert_eq!(whole("00000000 0004 22000000"), "n answer perm state\n1 8 0 1\n");
    for behind in ["00", "00000000", "00000000 00", "00000000 0001"] {
        let input = format!("ffffffff 0000 {behind}");
        assert_eq!(whole(&input), "n answer perm state\n1 2 0 1\ncut\n");
    }
}

#[test]
fn each_record_has_its_clock() {
    let mut input = Vec::new();
    let mut put = |clock: u32, record: &[u8]| {
        input.extend(clock.to_be_bytes());
        input.extend((record.len() as u16).to_be_bytes());
        input.extend(record);
    };
    let season = Access { period: Period { first: 0x0102_0304, last: 0x0506_0708 }, ..access(1, ANON, 2, 0, &[0]) };
    put(0, &compose(Verb::Update, ACL2, 0, &season.bytes()));
    put(7, &compose(Verb::Update, CRED, 0, &credential(5, uuid(0x11)).bytes()));
    put(0, &compose(Verb::Update, DOXM, 0, &device_owner_body(Some(uuid(0x11)))));
    // The clock may go back: nothing is kept of it.
    for clock in [0x0102_0303, 0x0102_0304, 0x0506_0709, 0x0506_0708, 0x0403_0201, u32::MAX, 0] {
        put(clock, &compose(Verb::Retrieve, DOXM, 0, &[]));
    }
    let lines: Vec<String> = text(&input).lines().skip(1).map(str::to_string).collect();
    let expected = [
        "1 0 31 1", "2 0 31 1", "3 0 31 1", "4 8 0 1", "5 0 2 1", "6 8 0 1", "7 0 2 1", "8 0 2 1", "9 8 0 1",
        "10 8 0 1",
    ];
    assert_eq!(lines, expected);
}

#[test]
fn over_long_records() {
    let mut input = vec![0, 0, 0, 0, 1, 1];
    input.extend([0; 257]);
    assert_eq!(text(&input), "n answer perm state\n1 2 0 1\n");
    input.pop();
    assert_eq!(text(&input), "n answer perm state\ncut\n");
}

#[test]
fn bytes_past_the_longest_run() {
    let filler = |length: usize| {
        let mut bytes = vec![0, 0, 0, 9];
        bytes.extend((length as u16).to_be_bytes());
        bytes.resize(6 + length, 0);
        bytes
    };
    // Ends exactly there: whole, whatever follows.
    let mut exact = filler(RUN_MAX - 6);
    exact.extend(filler(9));
    assert_eq!(text(&exact), "n answer perm state\n1 2 0 1\n");
    // Crosses the end by one.
    let crossing = filler(RUN_MAX - 5);
    assert_eq!(text(&crossing), "n answer perm state\ncut\n");
    // That many bytes of the second clock and length are inside.
    for inside in 1..6 {
        let mut cut = filler(RUN_MAX - 6 - inside);
        cut.extend(filler(9));
        assert_eq!(text(&cut), "n answer perm state\n1 2 0 1\ncut\n");
    }
    let mut empty = filler(RUN_MAX - 12);
    empty.extend(filler(0));
    empty.push(0);
    assert_eq!(text(&empty), "n answer perm state\n1 2 0 1\n2 2 0 1\n");
}
