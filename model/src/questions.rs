//! Questions whether senders are isolated: tables and lists of senders, by
//! enumeration and at random; how often each answer came; shrinking.

use std::fmt;

use crate::case;
use crate::directory::{ACL2, CRED, DOXM, PSTAT, ROLES, TARE, WEIGHT, YARD};
use crate::examples::{access, credential, owned, role, uuid, ANON, AUTH};
use crate::generate;
use crate::isolation::{list_of, Isolation, Sender, ENTRY};
use crate::random::Random;
use crate::record::{MAY_ALL, MAY_RETRIEVE};
use crate::spoil::TABLE_FAULTS;
use crate::tables::{Access, State, Subject, TableBytes, Tables, MINUS, PLUS, STAR};

/// Tables and a list of senders.
pub type Question = (TableBytes, Vec<u8>);

/// Longer than the credential rows and the unauthenticated need.
const LONG: usize = 40;
const RANDOM: usize = 30_000;
/// Tables for each fault, and questions of it: three of each tables.
const FAULTY: usize = 20;
pub const OF_A_FAULT: usize = 3 * FAULTY;
/// All wildcards, which reach no security resource.
const ANY: u8 = PLUS | MINUS | STAR;

/// All questions; the seed decides what is random in them.
pub fn cases(seed: u64) -> impl Iterator<Item = Question> {
    let mut random = Random::part(seed, 9);
    let questions = [lengths(&mut random), places(), owners(), faults(&mut random)];
    questions.into_iter().flatten().chain((0..RANDOM).map(move |_| random_question(&mut random)))
}

/// An owned terminal with the partners 5, who owns it, and 7 to 9, and these
/// access rows.
pub fn yard(accesses: Vec<Access>) -> Tables {
    let partners = (7..10).map(|number| credential(number, uuid(number as u8)));
    let mut tables = Tables { accesses, ..owned(State::Rfnop) };
    tables.credentials.extend(partners);
    tables
}

/// Every length of a list, on tables that isolate all its senders, and on fresh
/// ones.
fn lengths(random: &mut Random) -> Vec<Question> {
    let mut questions = Vec::new();
    for length in 0..=LONG * ENTRY + 1 {
        let mut senders = list_of(&[Some(7), None, Some(8), Some(200)].repeat(LONG));
        senders.truncate(length);
        questions.push((yard(Vec::new()).bytes(), senders.clone()));
        questions.push((Tables::fresh().bytes(), senders.clone()));
        questions.push((generate::any_bytes(random), senders));
    }
    questions
}

/// Every subject and permission of an access row, on each security resource and
/// none, asked of every kind of sender; the row first, second and last of a full
/// table; the sender first, second and last of a list.
fn places() -> Vec<Question> {
    let subjects = [Subject::Uuid(uuid(7)), Subject::Uuid(uuid(8)), role(0, 9), ANON, AUTH];
    let senders = [None, Some(7), Some(9), Some(200)];
    let mut questions = Vec::new();
    for subject in subjects {
        for permission in 0..=MAY_ALL {
            for resource in [DOXM, PSTAT, CRED, ACL2, ROLES, WEIGHT, YARD] {
                let place = usize::from(permission + resource) % 3;
                let mut rows: Vec<Access> =
                    (1..32).map(|number| access(number, AUTH, MAY_RETRIEVE, ANY, &[WEIGHT, TARE])).collect();
                rows.insert([0, 1, 31][place], access(99, subject, permission, ANY, &[resource]));
                for sender in senders {
                    let mut list: Vec<Sender> = vec![Some(8); 4];
                    list.insert([0, 1, 4][place], sender);
                    questions.push((yard(rows.clone()).bytes(), list_of(&list)));
                }
            }
        }
    }
    questions
}

/// Each single owner is the subject of partner 7, at every entry of a list.
pub fn owners() -> Vec<Question> {
    let mut questions = Vec::new();
    for owner in 0..=4 {
        let mut tables = yard(Vec::new());
        match owner {
            4 => tables.device_owner = Some(uuid(7)),
            place => tables.row_owners[place] = Some(uuid(7)),
        }
        for entry in 0..6 {
            let mut list: Vec<Sender> = vec![None; 6];
            list[entry] = Some(7);
            questions.push((tables.bytes(), list_of(&list)));
        }
    }
    questions
}

/// Each fault of tables, with an empty, a good and an odd list.
pub fn faults(random: &mut Random) -> Vec<Question> {
    let mut questions = Vec::new();
    for (_, fault) in TABLE_FAULTS {
        let mut made = 0;
        while made < FAULTY {
            let mut stored = generate::any_sound(random).bytes();
            if fault(&mut stored, random) {
                questions.extend([vec![], vec![0, 7], vec![0, 7, 0]].map(|list| (stored, list)));
                made += 1;
            }
        }
    }
    questions
}

/// Any tables, mostly sound, and any list, mostly of partners that have rows.
pub fn random_question(random: &mut Random) -> Question {
    let tables = generate::any_sound(random);
    let stored = if random.chance(10) { generate::any_bytes(random) } else { tables.bytes() };
    (stored, random_list(random, &tables))
}

fn random_list(random: &mut Random, tables: &Tables) -> Vec<u8> {
    let partners: Vec<Sender> = tables.credentials.iter().map(|row| Some(row.number)).collect();
    let count = match random.below(10) {
        0 => 0,
        1..=6 => random.between(1, 3),
        7 | 8 => random.between(1, 24),
        _ => random.between(1, LONG),
    };
    let mut list = Vec::new();
    for _ in 0..count {
        list.push(match random.below(10) {
            0 => None,
            1 => Some(random.between(1, 0xFFFF) as u16),
            _ if partners.is_empty() => Some(random.between(1, 48) as u16),
            _ => random.pick(&partners),
        });
    }
    let mut bytes = list_of(&list);
    match random.below(20) {
        0 => bytes.push(random.byte()),
        1 if !bytes.is_empty() => {
            let place = random.below(bytes.len());
            bytes[place] ^= 1 << random.below(8);
        }
        _ => {}
    }
    bytes
}

/// How often each reason came, by its number.
#[derive(Clone, Default)]
pub struct Counts {
    pub reasons: [u64; 6],
}

impl Counts {
    pub fn add(&mut self, answer: Isolation) {
        self.reasons[usize::from(answer.reason)] += 1;
    }

    pub fn total(&self) -> u64 {
        self.reasons.iter().sum()
    }
}

impl fmt::Display for Counts {
    fn fmt(&self, out: &mut fmt::Formatter) -> fmt::Result {
        let [isolated, odd, unsound, no_owner, owner, alters] = self.reasons;
        write!(
            out,
            "questions of isolation: {}, of which {isolated} are answered yes, {odd} have an odd length (1), {unsound} \
             tables that are not sound (2), {no_owner} no owner (3), {owner} a sender that names an owner (4), {alters} \
             one that may alter a security resource (5)",
            self.total()
        )
    }
}

/// Makes the list of a question smaller as long as the answer differs.
pub fn shrink(list: Vec<u8>, differs: impl Fn(&[u8]) -> bool) -> Vec<u8> {
    case::shrink_list(list, ENTRY, differs)
}

#[cfg(test)]
#[path = "tests/questions.rs"]
mod tests;
