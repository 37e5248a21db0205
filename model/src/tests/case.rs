//! Tests of cases as lines, of what a caller sees, and of shrinking.

use super::*;
use crate::answers::{NO_ROOM, PERMITTED};
use crate::generate::{self, Style};
use crate::random::Random;
use crate::tables::Tables;

#[test]
fn lines_read_and_write_alike() {
    let mut random = Random::new(5);
    for _ in 0..20 {
        let defaults = generate::defaults(&mut random);
        let tables = generate::any_bytes(&mut random);
        let queue = QueueBytes::from_bytes(&random.bytes(700));
        let record = random.bytes(9);
        let call = random.pick(&Call::ALL);
        let case = Case { call, tables, queue, clock: u32::MAX, record, capacity: 517, defaults };
        assert_eq!(Case::from_line(&case.line()), Ok(case.clone()));
        assert!(Case::from_line(&format!("{}00", case.line())).is_ok());
        assert!(Case::from_line(&format!("{}0", case.line())).is_err());
        assert!(Case::from_line(&format!("{}x", case.line())).is_err());
        assert!(Case::from_line(&format!("{}:", case.line())).is_err());
        assert!(Case::from_line(&case.line().replace(":517:", ":5l7:")).is_err());
        assert!(Case::from_line(&case.line().replace(":4294967295:", ":0:")).is_ok());
        assert!(Case::from_line(&case.line().replace(":4294967295:", ":4294967296:")).is_err());
    }
    assert!(Case::from_line("judge:00::0:00:0").is_err());
    assert!(Case::from_line("judge:00::0:00:0::").unwrap_err().contains("2172"));
    assert!(Case::from_line("judge:0g::0:00:0::").is_err());
    let fresh = hex::write(&fresh_bytes());
    assert!(Case::from_line(&format!("take:{fresh}::0::0::")).is_ok());
    assert!(Case::from_line(&format!("takes:{fresh}::0::0::")).unwrap_err().contains("takes"));
    let queue_bytes = "00".repeat(6504);
    assert!(Case::from_line(&format!("take:{fresh}:{queue_bytes}:0::0::")).is_ok());
    assert!(Case::from_line(&format!("take:{fresh}:{queue_bytes}00:0::0::")).unwrap_err().contains("6505"));
}

#[test]
fn default_lists_shrink() {
    // A program that takes the first two rows of a longer list.
    let wrong = |case: &Case| {
        let mut shorter = case.clone();
        shorter.defaults.default_creds.truncate(46);
        shorter.expected()
    };
    let differs = |case: &Case| !wrong(case).same(&case.expected());
    let draw = |random: &mut Random| {
        let tables = generate::any_sound(random).bytes();
        let record = generate::record(random, Style::Purposeful, &tables, 0);
        Case { defaults: generate::defaults(random), ..Case::new(&tables, &record) }
    };
    let found = Random::new(9).until(draw, |case| differs(case));
    let small = shrink(found, differs);
    assert_eq!(small.record.len(), 5);
    assert_eq!(small.defaults.default_creds.len(), 47);
    assert!(small.defaults.default_aces.is_empty());
    assert!(differs(&small));
}

#[test]
fn the_buffer_behind_a_reply_is_kept() {
    let read_pstat = Case { capacity: 40, ..Case::new(&fresh_bytes(), &[0x20, 0x40, 0, 0]) };
    let seen = read_pstat.expected();
    assert_eq!((seen.answer, seen.reply, seen.buffer.len()), (PERMITTED, 17, 40 + GUARD));
    let mut expected = Case::pattern(40 + GUARD);
    expected[0] = 0x20;
    expected[1..17].fill(0);
    assert_eq!(seen.buffer, expected);
    let seen = Case { capacity: 16, ..read_pstat }.expected();
    assert_eq!((seen.answer, seen.reply), (NO_ROOM, 0));
    assert_eq!(seen.buffer, Case::pattern(16 + GUARD));
}

#[test]
fn a_written_byte_too_many_shrinks_to_little() {
    // A program that writes a zero after each reply.
    let wrong = |case: &Case| {
        let mut seen = case.expected();
        if seen.reply > 0 {
            seen.buffer[seen.reply] = 0;
        }
        seen
    };
    let differs = |case: &Case| !wrong(case).same(&case.expected());
    let draw = |random: &mut Random| {
        let tables = generate::any_sound(random).bytes();
        let record = generate::record(random, Style::Purposeful, &tables, 0);
        Case { capacity: 1500, ..Case::new(&tables, &record) }
    };
    let found = Random::new(8).until(draw, |case| differs(case));
    let small = shrink(found, differs);
    assert_eq!(small.record.len(), 4);
    assert!(small.capacity <= 33);
    assert_eq!(small.tables[ACCESS_COUNT], 0);
}

#[test]
fn a_difference_shrinks_to_little() {
    // A program that takes a table for full too early.
    let wrong = |case: &Case| {
        let mut seen = case.expected();
        if seen.answer == PERMITTED && seen.tables[ACCESS_COUNT] > 20 {
            seen.answer = 14;
        }
        seen
    };
    let differs = |case: &Case| !wrong(case).same(&case.expected());
    let draw = |random: &mut Random| {
        let tables = generate::any_sound(random).bytes();
        Case::new(&tables, &generate::record(random, Style::Purposeful, &tables, 0))
    };
    let found =
        Random::new(6).until(draw, |case| case.tables[CREDENTIAL_COUNT] > 5 && case.record.len() > 25 && differs(case));
    let small = shrink(found, differs);
    assert!((20..=21).contains(&small.tables[ACCESS_COUNT]));
    assert!(small.tables[CREDENTIAL_COUNT] <= 1);
    assert!(small.tables[ROW_OWNERS].iter().filter(|&&byte| byte != 0).count() <= 16);
    assert!(differs(&small));
}

#[test]
fn a_clock_shrinks_to_the_border() {
    // A program whose rows hold a second too long.
    let wrong = |case: &Case| match case.clock {
        0 => case.expected(),
        _ => Case { clock: case.clock - 1, ..case.clone() }.expected(),
    };
    let differs = |case: &Case| wrong(case).permission > case.expected().permission;
    let draw = |random: &mut Random| {
        let tables = generate::any_sound(random).bytes();
        let clock = generate::clock(random, &tables);
        let record = generate::record(random, Style::Purposeful, &tables, clock.saturating_sub(1));
        Case { clock, ..Case::new(&tables, &record) }
    };
    let found = Random::new(10).until(draw, |case| case.clock > 1000 && differs(case));
    let small = shrink(found, differs);
    assert_eq!(small.clock, 1);
    assert_eq!(small.tables[ACCESS_COUNT], 1);
}

#[test]
fn asserted_roles_shrink_to_one() {
    // A program in which they last a second longer.
    let wrong = |case: &Case| match Tables::read(&case.tables) {
        Ok(mut tables) => {
            for shown in tables.credentials.iter_mut().flat_map(|row| &mut row.asserted) {
                shown.last = shown.last.saturating_add(1);
            }
            Case { tables: tables.bytes(), ..case.clone() }.expected()
        }
        Err(_) => case.expected(),
    };
    let differs = |case: &Case| wrong(case).permission > case.expected().permission;
    let draw = |random: &mut Random| {
        let tables = generate::any_sound(random).bytes();
        let clock = generate::clock(random, &tables);
        let record = generate::record(random, Style::Purposeful, &tables, clock.saturating_sub(1));
        Case { clock, ..Case::new(&tables, &record) }
    };
    let found =
        Random::new(11).until(draw, |case| case.clock > 900 && case.tables[CREDENTIAL_COUNT] > 5 && differs(case));
    let small = shrink(found, differs);
    let tables = Tables::read(&small.tables).expect("sound");
    assert_eq!((small.clock, tables.credentials.len(), tables.accesses.len()), (1, 1, 1));
    assert_eq!(tables.credentials[0].asserted.len(), 1);
}

#[test]
fn a_queue_shrinks_to_one_record() {
    // A program that leaves the round where it was.
    let wrong = |case: &Case| {
        let mut seen = case.expected();
        if case.call == Call::Take && seen.taken > 0 {
            let mut bytes = seen.queue.whole();
            bytes[ROUND].copy_from_slice(&case.queue.whole()[ROUND]);
            seen.queue = QueueBytes::from_bytes(&bytes);
        }
        seen
    };
    let differs = |case: &Case| !wrong(case).same(&case.expected());
    let draw = |random: &mut Random| {
        let tables = generate::any_sound(random);
        let queue = generate::queue(random, &tables).bytes();
        Case { call: Call::Take, queue, ..Case::new(&tables.bytes(), &[]) }
    };
    let found = Random::new(12).until(draw, |case| case.queue.whole()[COUNT] > 8 && differs(case));
    let small = shrink(found, differs);
    assert_eq!(small.queue.whole()[..SLOTS.start], [1, 0, 0, 0]);
    assert!(small.queue.trimmed().len() <= SLOTS.start + 8);
    assert_eq!(Case::from_line(&small.line()), Ok(small.clone()));
}

#[test]
fn fields_are_named() {
    assert_eq!(field(0), "byte 0 (state)");
    assert_eq!(field(83), "byte 83 (row owner 3)");
    assert_eq!(field(84 + 22), "byte 106 (credential place 0)");
    assert_eq!(field(84 + 23), "byte 107 (asserted role 0 of credential place 0)");
    assert_eq!(field(1019), "byte 1019 (asserted role 1 of credential place 23)");
    assert_eq!(field(1020), "byte 1020 (access place 0)");
    assert_eq!(field(2171), "byte 2171 (access place 31)");
    assert_eq!(queue::field(0), "byte 0 of the memory (count of records that wait)");
    assert_eq!(queue::field(3), "byte 3 of the memory (round)");
    assert_eq!(queue::field(263), "byte 263 of the memory (slot 0)");
    assert_eq!(queue::field(6503), "byte 6503 of the memory (slot 24)");
}
