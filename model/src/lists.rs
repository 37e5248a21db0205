//! Lists for the test of the provisioning program's rows: by enumeration, then
//! random ones; how often each answer came; shrinking.

use std::fmt;

use crate::case;
use crate::defaults::join;
use crate::directory::{security_resources, ACL2, DIRECTORY, WEIGHT};
use crate::examples::{access, role, uuid, ANON, AUTH};
use crate::generate;
use crate::provisioning::{opens_security, Refusal, Tested};
use crate::random::Random;
use crate::record::{MAY_NOTIFY, MAY_RETRIEVE, MAY_UPDATE};
use crate::spoil::{ACCESS_FAULTS, LOAD_FAULTS};
use crate::tables::{Access, Period, Row, Subject, MINUS, PLUS, STAR};

const ROW: usize = Access::BODY_SIZE;
const MOST: usize = Access::CAPACITY;
/// Longer than any that is accepted.
const LONG: usize = 40;
const RANDOM: usize = 20_000;

/// All lists; the seed decides what the random bytes in them are.
pub fn cases(seed: u64) -> impl Iterator<Item = Vec<u8>> {
    let mut random = Random::part(seed, 6);
    let lists = [
        lengths(&mut random),
        faults(&mut random),
        numbers(&mut random),
        flips(&mut random),
        writes(&mut random),
        two_faults(&mut random),
    ];
    lists.into_iter().flatten().chain((0..RANDOM).map(move |_| random_list(&mut random)))
}

/// That many rows with which nothing is wrong.
pub fn good_list(random: &mut Random, rows: usize) -> Vec<u8> {
    let mut list: Vec<Access> = Vec::new();
    for _ in 0..rows {
        let held: Vec<u16> = list.iter().map(Row::number).collect();
        let mut row = generate::access(random, &held);
        while opens_security(&row) {
            match random.below(3) {
                0 => row.subject = Subject::Uuid(generate::uuid(random)),
                1 => row.permission &= MAY_RETRIEVE | MAY_NOTIFY,
                _ => row = generate::access(random, &held),
            }
        }
        list.push(row);
    }
    join(&list)
}

/// Any list, about a third of them good.
pub fn random_list(random: &mut Random) -> Vec<u8> {
    let rows = match random.below(10) {
        0 => random.between(0, 1),
        1..=4 => random.between(1, 6),
        5..=7 => random.between(0, MOST),
        8 => MOST,
        _ => random.between(MOST, LONG),
    };
    let mut list = good_list(random, rows);
    match random.below(10) {
        0..=3 => {}
        4..=6 => spoil(&mut list, random),
        7 => {
            for _ in 0..random.between(2, 4) {
                spoil(&mut list, random);
            }
        }
        8 if !list.is_empty() => {
            let place = random.below(list.len());
            list[place] ^= 1 << random.below(8);
        }
        _ => {
            let rows = random.between(0, 3);
            list.extend(random.bytes(rows * ROW));
        }
    }
    list
}

/// Any one fault that can be made.
fn spoil(list: &mut Vec<u8>, random: &mut Random) {
    loop {
        let (_, _, fault) = random.pick(&LOAD_FAULTS);
        if fault(list, random) {
            return;
        }
    }
}

/// Every length, in bytes, of good rows and of bytes without sense; every count
/// of rows, good and with the last one bad.
fn lengths(random: &mut Random) -> Vec<Vec<u8>> {
    let mut lists = Vec::new();
    let rows = good_list(random, LONG);
    for length in 0..=rows.len() {
        lists.push(rows[..length].to_vec());
        if length % 7 == 0 || length % ROW == 1 {
            lists.push(random.bytes(length));
            lists.push(vec![0; length]);
        }
    }
    for rows in 0..=LONG {
        let good = good_list(random, rows);
        for (_, fault) in ACCESS_FAULTS {
            let mut list = good.clone();
            if let Some(last) = list.len().checked_sub(ROW) {
                fault(&mut list[last..], random);
                lists.push(list);
            }
        }
        lists.push(good);
    }
    lists
}

/// Every fault, at every row of a full list where it is possible.
fn faults(random: &mut Random) -> Vec<Vec<u8>> {
    let mut lists = Vec::new();
    let full = good_list(random, MOST);
    for (_, fault) in ACCESS_FAULTS {
        for place in 0..MOST {
            let mut list = full.clone();
            fault(&mut list[place * ROW..][..ROW], random);
            lists.push(list);
        }
    }
    for (_, _, fault) in LOAD_FAULTS {
        for rows in 0..=MOST {
            let mut list = good_list(random, rows);
            if fault(&mut list, random) {
                lists.push(list);
            }
        }
    }
    lists
}

/// A number again at every pair of rows, and numbers a bit off.
fn numbers(random: &mut Random) -> Vec<Vec<u8>> {
    let mut lists = Vec::new();
    let full = good_list(random, MOST);
    for later in 1..MOST {
        for earlier in 0..later {
            let mut list = full.clone();
            list.copy_within(earlier * ROW..earlier * ROW + 2, later * ROW);
            lists.push(list);
        }
    }
    for number in [0x0201, 1, 0x0100, 0xFFFF] {
        for bit in 0..16 {
            let near = access(number ^ 1 << bit, AUTH, MAY_RETRIEVE, 0, &[WEIGHT]);
            lists.push(join(&[access(number, ANON, MAY_RETRIEVE, 0, &[WEIGHT]), near]));
        }
    }
    // All of one low byte, and of one high byte.
    for step in [0x0100, 1] {
        let rows =
            |from: u16| (0..MOST as u16).map(move |place| access(from + step * place, AUTH, MAY_RETRIEVE, 0, &[]));
        lists.push(join(&rows(1).collect::<Vec<Access>>()));
        lists.push(join(&rows(1).chain([access(1, AUTH, MAY_RETRIEVE, 0, &[])]).skip(1).collect::<Vec<Access>>()));
    }
    lists
}

/// Rows of each subject.
fn each_subject() -> [Subject; 6] {
    [Subject::Uuid(uuid(0x22)), role(0, 7), role(0x0102, 1), role(0xFFFF, 0xFFFF), ANON, AUTH]
}

/// Every bit of small good lists turned over.
fn flips(random: &mut Random) -> Vec<Vec<u8>> {
    let of_each = |permission, resources: &[u8]| {
        let rows = (1..).zip(each_subject());
        join(&rows.map(|(number, subject)| access(number, subject, permission, 0, resources)).collect::<Vec<Access>>())
    };
    let mut lists = Vec::new();
    for list in [of_each(2, &[0, 1, 2, 3]), of_each(13, &[8, 16]), good_list(random, 4)] {
        for bit in 0..list.len() * 8 {
            let mut flipped = list.clone();
            flipped[bit / 8] ^= 0x80 >> (bit % 8);
            lists.push(flipped);
        }
        lists.push(list);
    }
    lists
}

/// One row of every permission on every resource, by each subject and wildcard;
/// every set of security resources.
fn writes(random: &mut Random) -> Vec<Vec<u8>> {
    let mut rows = Vec::new();
    for subject in each_subject() {
        for permission in 0..32 {
            for wildcards in 0..8 {
                for resource in &DIRECTORY {
                    rows.push(access(1, subject, permission, wildcards, &[resource.number]));
                }
            }
        }
    }
    let security: Vec<u8> = security_resources().map(|resource| resource.number).collect();
    for choice in 0..1 << security.len() {
        let held = |&place: &usize| choice >> place & 1 == 1;
        let chosen: Vec<u8> = (0..security.len()).filter(held).map(|place| security[place]).collect();
        for subject in each_subject() {
            for bit in 0..5 {
                rows.push(access(1, subject, 1 << bit, 0, &chosen));
                rows.push(access(1, subject, 31 ^ 1 << bit, PLUS | MINUS | STAR, &[&chosen[..], &[8, 12]].concat()));
            }
        }
    }
    // Mostly alone; else after other rows, in a period.
    (0..)
        .zip(rows)
        .map(|(turn, row)| match turn % 8 {
            0 => {
                let before =
                    (2..=random.between(2, 5) as u16).map(|number| access(number, AUTH, MAY_RETRIEVE, STAR, &[ACL2]));
                let period = Period { first: turn, last: random.pick(&[turn, turn + 1, u32::MAX]) };
                join(&before.chain([Access { period, ..row }]).collect::<Vec<Access>>())
            }
            _ => row.bytes(),
        })
        .collect()
}

/// Every fault of a row with every other: in the same row, before and after.
fn two_faults(random: &mut Random) -> Vec<Vec<u8>> {
    let mut lists = Vec::new();
    let of_rows = LOAD_FAULTS.iter().filter(|(_, answer, _)| *answer != Refusal::BadSize as u8);
    for (_, _, fault) in of_rows.clone() {
        for (_, _, other) in of_rows.clone() {
            for rows in 1..=8 {
                let mut list = good_list(random, rows);
                if fault(&mut list, random) && other(&mut list, random) {
                    lists.push(list);
                }
            }
        }
    }
    let opens = access(7, AUTH, MAY_UPDATE, 0, &[ACL2]);
    for (_, fault) in ACCESS_FAULTS {
        let mut row = opens.bytes();
        fault(&mut row, random);
        lists.push(row);
    }
    // A row that could be stored if it had another number.
    let full = good_list(random, MOST);
    for later in 1..MOST {
        let mut list = full.clone();
        list[later * ROW..][..ROW].copy_from_slice(&opens.bytes());
        let earlier = random.below(later) * ROW;
        list.copy_within(earlier..earlier + 2, later * ROW);
        lists.push(list);
    }
    lists
}

/// How often each answer came.
#[derive(Clone, Default)]
pub struct Counts {
    pub accepted: u64,
    pub length: u64,
    pub not_storable: u64,
    pub opens_security: u64,
}

impl Counts {
    pub fn add(&mut self, tested: Tested) {
        const LENGTH: u8 = Refusal::BadSize as u8;
        const NOT_STORABLE: u8 = Refusal::NotStorable as u8;
        let count = match tested.answer {
            0 => &mut self.accepted,
            LENGTH => &mut self.length,
            NOT_STORABLE => &mut self.not_storable,
            _ => &mut self.opens_security,
        };
        *count += 1;
    }

    pub fn total(&self) -> u64 {
        let Counts { accepted, length, not_storable, opens_security } = self;
        accepted + length + not_storable + opens_security
    }
}

impl fmt::Display for Counts {
    fn fmt(&self, out: &mut fmt::Formatter) -> fmt::Result {
        let Counts { accepted, length, not_storable, opens_security } = self;
        write!(
            out,
            "lists: {}, of which {accepted} are accepted, {length} have another length (19), {not_storable} a row that \
             cannot be stored (20), {opens_security} one that opens a security resource (21)",
            self.total()
        )
    }
}

/// Makes a list smaller as long as its test differs.
pub fn shrink(list: Vec<u8>, differs: impl Fn(&[u8]) -> bool) -> Vec<u8> {
    case::shrink_list(list, ROW, differs)
}

#[cfg(test)]
#[path = "tests/lists.rs"]
mod tests;
