//! Values from small pools, so that they meet again, and near misses of them: UUIDs,
//! roles, seconds, clocks, row numbers.

use super::*;

pub(super) const SUBJECTS: [u128; 8] = [
    0x1111_1111_1111_1111_1111_1111_1111_1111,
    0x2222_2222_2222_2222_2222_2222_2222_2222,
    0x3333_3333_3333_3333_3333_3333_3333_3333,
    0x1111_1111_1111_1111_1111_1111_1111_1110,
    0x0111_1111_1111_1111_1111_1111_1111_1111,
    0x0000_0000_0000_0000_0000_0000_0000_0001,
    0x8000_0000_0000_0000_0000_0000_0000_0000,
    0x0000_0000_0000_0000_0001_0000_0000_0000,
];
pub(super) const ROLE_NUMBERS: [u16; 6] = [1, 7, 0x0700, 0x0100, 0x8000, 0xFFFF];
pub(super) const AUTHORITIES: [u16; 6] = [1, 0x0100, 7, 0x0700, 0x8000, 0xFFFF];
pub(super) const SECONDS: [u32; 12] = [
    0,
    1,
    0x0000_00FF,
    0x0000_0100,
    0x0000_FFFF,
    0x0001_0000,
    0x00FF_FFFF,
    0x0100_0000,
    0x7FFF_FFFF,
    0x8000_0000,
    0xFFFF_FFFE,
    0xFFFF_FFFF,
];
pub(super) const NUMBERS: [u16; 8] = [5, 0x0500, 0x0001, 0x0100, 0x0101, 0x8000, 0xFF00, 0xFFFF];

pub fn uuid(random: &mut Random) -> Uuid {
    let value = match random.below(20) {
        0 => u128::from(random.next()) << 64 | u128::from(random.next()),
        1 => SUBJECTS[0] ^ 1 << random.below(128),
        2..=13 => random.pick(&SUBJECTS[..3]),
        _ => random.pick(&SUBJECTS),
    };
    Uuid::new(value).unwrap_or(Uuid::MIN)
}

pub(super) fn maybe_uuid(random: &mut Random) -> Option<Uuid> {
    random.chance(60).then(|| uuid(random))
}

/// Mostly one of two numbers, so that equal ones of other authorities meet.
pub(super) fn role(random: &mut Random) -> Role {
    let number = match random.below(20) {
        0 => random.between(1, 0xFFFF) as u16,
        1..=12 => random.pick(&ROLE_NUMBERS[..2]),
        _ => random.pick(&ROLE_NUMBERS),
    };
    let authority = match random.below(20) {
        0 => random.between(0, 0xFFFF) as u16,
        1..=9 => 0,
        10..=15 => random.pick(&AUTHORITIES[..2]),
        _ => random.pick(&AUTHORITIES),
    };
    Role { authority, number }
}

pub(super) fn second(random: &mut Random) -> u32 {
    match random.below(10) {
        0 => random.next() as u32,
        1..=4 => random.pick(&SECONDS),
        _ => random.between(990, 1010) as u32,
    }
}

/// Mostly every second, so that rows fit; else short ones, long ones and some
/// that leave out hardly a second.
pub(super) fn period(random: &mut Random) -> Period {
    if random.chance(60) {
        return Period::ALWAYS;
    }
    let (one, other) = (second(random), second(random));
    let (first, last) = match random.below(10) {
        0 => (one, one),
        1 => (0, one),
        2 => (one, u32::MAX),
        3 => (0, u32::MAX - (1 << random.below(32))),
        4 => (1 << random.below(32), u32::MAX),
        _ => (one.min(other), one.max(other)),
    };
    Period { first, last }
}

/// A clock, mostly at or next to the last second of an asserted role, or an
/// end of a period that a row has.
pub fn clock(random: &mut Random, present: &TableBytes) -> u32 {
    let tables = Tables::read(present).unwrap_or_else(|_| Tables::fresh());
    let shown: Vec<Asserted> = tables.credentials.iter().flat_map(|row| &row.asserted).copied().collect();
    if !shown.is_empty() && random.chance(40) {
        let Asserted { last, .. } = random.pick(&shown);
        return match random.below(6) {
            0 | 1 => last,
            2 | 3 => last.saturating_add(1),
            4 => last.saturating_sub(1),
            _ => last ^ 1 << random.below(32),
        };
    }
    let periods = tables.accesses.iter().map(|row| row.period);
    let short: Vec<Period> = periods.filter(|&period| period != Period::ALWAYS).collect();
    let kind = random.below(20);
    if short.is_empty() || kind < 5 {
        return match random.below(6) {
            0 => 0,
            1 => u32::MAX,
            _ => second(random),
        };
    }
    let Period { first, last } = random.pick(&short);
    match kind {
        5..=7 => first,
        8..=10 => last,
        11 | 12 => first.saturating_sub(1),
        13 | 14 => last.saturating_add(1),
        15 => first.saturating_add(1),
        16 => last.saturating_sub(1),
        17 => random.pick(&[first, last]) ^ 1 << random.below(32),
        _ => first + ((last - first) as f64 * random.below(100) as f64 / 100.0) as u32,
    }
}

/// A row number, never 0.
pub(super) fn number(random: &mut Random) -> u16 {
    match random.below(10) {
        0 => random.between(1, 0xFFFF) as u16,
        1 | 2 => random.pick(&NUMBERS),
        _ => random.between(1, 48) as u16,
    }
}

pub(super) fn number_beside(random: &mut Random, held: &[u16]) -> u16 {
    loop {
        let drawn = number(random);
        if !held.contains(&drawn) {
            return drawn;
        }
    }
}
