//! A file of queries for another program to read: what is asked and changes
//! nothing, and what is answered.
//!
//! Entries follow one another: a tag byte, the length of what follows (16 bits),
//! and that:
//! 0: tables, from now on the current ones, in the form that vectors.rs has;
//! 1: a store, from now on the current one;
//! 2: an image, from now on the current one;
//! 3: whether senders are isolated in the current tables: reason (a byte), entry
//!    (16 bits) and row (a byte), then the list of senders;
//! 4: the next step by which the current image is stored in the current store: the
//!    position (64 bits), then answer (a byte: 0 done, 1 write, 2 unfit), place (16
//!    bits) and byte, both 0 where nothing is to be written;
//! 5: where the image in force of the current store starts: the length of an image
//!    (64 bits), then answer (a byte: 0, or 2 where the store is none for such
//!    images) and place (16 bits);
//! 6: all writes by which the current image is stored in the current store, from
//!    the start until it is done: answer, place and byte of each.
//! Numbers of 16 and 64 bits have their high byte first.

use crate::directory::{ACL2, CRED, DOXM, PSTAT, ROLES, WEIGHT, YARD};
use crate::examples::{access, owned, role, uuid, ANON, AUTH};
use crate::generate;
use crate::isolation::{ask, list_of, Sender};
use crate::questions::{self, Counts, Question};
use crate::queue::QueueBytes;
use crate::random::Random;
use crate::record::MAY_RETRIEVE;
use crate::store::{self, Step, MARKS};
use crate::tables::{Access, State, Subject, TableBytes, Tables};
use crate::vectors::short_form;

pub const TABLES: u8 = 0;
pub const STORE: u8 = 1;
pub const IMAGE: u8 = 2;
pub const SENDERS: u8 = 3;
pub const STEP: u8 = 4;
pub const CURRENT: u8 = 5;
pub const RUN: u8 = 6;

/// Random questions fill the file up to this length.
const LENGTH: usize = 160_000;

#[derive(Default)]
pub struct Queries {
    pub bytes: Vec<u8>,
    pub steps: usize,
    pub currents: usize,
    pub runs: usize,
    pub questions: Counts,
    tables: Option<TableBytes>,
    store: Option<Vec<u8>>,
    image: Option<Vec<u8>>,
}

impl Queries {
    pub fn build(seed: u64) -> Queries {
        let mut queries = Queries::default();
        let mut random = Random::part(seed, 11);
        queries.small_stores(&mut random);
        queries.other_lengths(&mut random);
        queries.marks();
        queries.cuts(&mut random);
        queries.terminals(&mut random);
        queries.yards();
        queries.few_questions(&mut random);
        while queries.bytes.len() < LENGTH {
            queries.question(&questions::random_question(&mut random));
        }
        queries
    }

    fn entry(&mut self, tag: u8, parts: &[&[u8]]) {
        let body = parts.concat();
        self.bytes.push(tag);
        self.bytes.extend(u16::try_from(body.len()).expect("a short entry").to_be_bytes());
        self.bytes.extend(body);
    }

    fn set_store(&mut self, store: &[u8]) {
        if self.store.as_deref() != Some(store) {
            self.entry(STORE, &[store]);
            self.store = Some(store.to_vec());
        }
    }

    fn set_image(&mut self, image: &[u8]) {
        if self.image.as_deref() != Some(image) {
            self.entry(IMAGE, &[image]);
            self.image = Some(image.to_vec());
        }
    }

    fn question(&mut self, (tables, senders): &Question) {
        if self.tables.as_ref() != Some(tables) {
            self.entry(TABLES, &[&short_form(tables)]);
            self.tables = Some(*tables);
        }
        let answer = ask(tables, senders);
        self.entry(SENDERS, &[&[answer.reason], &(answer.entry as u16).to_be_bytes(), &[answer.row as u8], senders]);
        self.questions.add(answer);
    }

    fn step(&mut self, from: u64) {
        let (Some(store), Some(image)) = (&self.store, &self.image) else { panic!("a store and an image come first") };
        let step = store::next(store, image, from as usize);
        self.entry(STEP, &[&from.to_be_bytes(), &step_bytes(step)]);
        self.steps += 1;
    }

    fn current(&mut self, n: u64) {
        let store = self.store.as_ref().expect("a store comes first");
        let (answer, place) = match store::current(store, n as usize) {
            Some((place, _)) => (0, place),
            None => (2, 0),
        };
        self.entry(CURRENT, &[&n.to_be_bytes(), &[answer], &(place as u16).to_be_bytes()]);
        self.currents += 1;
    }

    /// All writes from the current store on; gives the store as each leaves it.
    fn run(&mut self) -> Vec<Vec<u8>> {
        let (Some(mut store), Some(image)) = (self.store.clone(), self.image.clone()) else {
            panic!("a store and an image come first")
        };
        let (mut from, mut writes, mut stores) = (0, Vec::new(), Vec::new());
        loop {
            let step = store::next(&store, &image, from);
            let Step::Write { place, byte } = step else { break };
            writes.extend(step_bytes(step));
            store[place] = byte;
            from = place + 1;
            stores.push(store.clone());
        }
        self.entry(RUN, &[&writes]);
        self.runs += 1;
        stores
    }

    /// Stores for images of 0 to 6 bytes, at every position.
    fn small_stores(&mut self, random: &mut Random) {
        for n in 0..=6 {
            for _ in 0..4 {
                let image = random.bytes(n);
                self.set_image(&image);
                self.set_store(&nearly(random, &image));
                let far = [1 << 32, 1 << 63, u64::MAX - 1, u64::MAX];
                (0..2 * n as u64 + 11).chain(far).for_each(|from| self.step(from));
                // Twice the last length is the store's except for an overflow.
                (0..n as u64 + 5).chain(far).chain([(1 << 63) + n as u64]).for_each(|n| self.current(n));
                self.run();
            }
        }
    }

    /// Stores of 0 to 18 bytes for images of 0 to 4.
    fn other_lengths(&mut self, random: &mut Random) {
        for length in 0..=18 {
            self.set_store(&random.bytes(length));
            for n in 0..=4 {
                self.set_image(&random.bytes(n));
                [0, 3, u64::MAX].into_iter().for_each(|from| self.step(from));
            }
        }
    }

    /// Each mark in its turn, from values at the borders: the spare image is the
    /// new one already.
    fn marks(&mut self) {
        for turn in 0..MARKS {
            for mark in [0, 1, 254, 255] {
                let mut marks = [0; MARKS];
                marks[turn] = mark;
                let sum = usize::from(mark);
                marks[(turn + 1) % MARKS] = ((turn + 256 * MARKS - sum) % MARKS) as u8;
                self.set_image(&[7, 8]);
                let images = if turn % 2 == 0 { [1, 2, 7, 8] } else { [7, 8, 1, 2] };
                self.set_store(&[&images[..], &marks].concat());
                self.step(0);
                self.run();
            }
        }
    }

    /// Power cuts at each write of small stores, with any value left in the byte:
    /// the image is stored again, or another one.
    fn cuts(&mut self, random: &mut Random) {
        for _ in 0..12 {
            let n = random.between(1, 5);
            let image = random.bytes(n);
            let store = random.bytes(2 * n + MARKS);
            self.set_image(&image);
            self.set_store(&store);
            let mut before = store;
            for after in self.run() {
                let place = (0..after.len()).find(|&i| before[i] != after[i]).expect("each write changes a byte");
                let mut left = before;
                left[place] = random.byte();
                self.set_store(&left);
                self.current(n as u64);
                self.step(place as u64);
                self.run();
                before = after;
            }
            self.set_image(&random.bytes(n));
            self.run();
        }
    }

    /// Stores and images of their real lengths: a row is stored, the first one
    /// goes, the terminal is cleared, and a full one takes its place; then one with
    /// the queue.
    fn terminals(&mut self, random: &mut Random) {
        let row = |number| access(number, AUTH, MAY_RETRIEVE, 0, &[WEIGHT]);
        let mut tables = Tables { accesses: (1..9).map(row).collect(), ..owned(State::Rfnop) };
        let mut images = vec![tables.bytes()];
        tables.accesses.push(row(9));
        images.push(tables.bytes());
        tables.accesses.remove(0);
        images.push(tables.bytes());
        images.push(Tables::fresh().bytes());
        images.push(generate::full_sound(random).bytes());
        self.life(&images.iter().map(|image| image.to_vec()).collect::<Vec<_>>());
        let queue = generate::queue(random, &tables).bytes().whole();
        let waiting = [&tables.bytes()[..], &queue].concat();
        let empty = [&tables.bytes()[..], &QueueBytes::empty().whole()].concat();
        self.life(&[empty, waiting]);
    }

    /// The images are stored one after the other, in a store that holds the first.
    fn life(&mut self, images: &[Vec<u8>]) {
        let mut store = [&images[0][..], &images[0], &[0; MARKS]].concat();
        let n = images[0].len() as u64;
        for image in &images[1..] {
            self.set_image(image);
            self.set_store(&store);
            self.current(n);
            for from in [1, n - 1, n, n + 1, 2 * n - 1, 2 * n, 2 * n + 1] {
                self.step(from);
            }
            store = self.run().pop().unwrap_or(store);
        }
    }

    /// Access rows of every kind of subject, first in turn, that give one
    /// permission on one resource; asked of each kind of sender.
    fn yards(&mut self) {
        let lists: [&[Sender]; 8] = [
            &[],
            &[None],
            &[Some(5)],
            &[Some(7)],
            &[Some(9)],
            &[Some(200)],
            &[None, Some(9), Some(8)],
            &[Some(200), Some(7), None, Some(5)],
        ];
        for bit in 0..5 {
            for resource in [DOXM, PSTAT, CRED, ACL2, ROLES, WEIGHT, YARD] {
                let subjects = [role(0, 9), Subject::Uuid(uuid(7)), ANON, Subject::Uuid(uuid(8)), AUTH];
                let mut rows: Vec<Access> = (1..)
                    .zip(subjects)
                    .map(|(number, subject)| access(number, subject, 1 << bit, 0, &[resource]))
                    .collect();
                rows.rotate_left((bit + usize::from(resource)) % 5);
                rows.truncate(4);
                let tables = questions::yard(rows).bytes();
                lists.iter().for_each(|list| self.question(&(tables, list_of(list))));
            }
        }
    }

    /// Lists of every length, each owner, and each fault of tables.
    fn few_questions(&mut self, random: &mut Random) {
        for tables in [questions::yard(Vec::new()), Tables::fresh()] {
            let senders = list_of(&[Some(7), None, Some(8), Some(200)].repeat(10));
            (0..=senders.len()).for_each(|length| self.question(&(tables.bytes(), senders[..length].to_vec())));
        }
        questions::owners().iter().for_each(|question| self.question(question));
        let faults = questions::faults(random);
        faults.chunks(questions::OF_A_FAULT).flat_map(|asked| &asked[..3]).for_each(|question| self.question(question));
    }
}

/// A store both of whose images are nearly this one.
pub fn nearly(random: &mut Random, image: &[u8]) -> Vec<u8> {
    let mut store = [image, image, &random.bytes(MARKS)].concat();
    for _ in 0..random.below(6) {
        let place = random.below(store.len());
        store[place] = random.byte();
    }
    store
}

/// Answer, place and byte.
fn step_bytes(step: Step) -> [u8; 4] {
    let (answer, place, byte) = match step {
        Step::Done => (0, 0, 0),
        Step::Write { place, byte } => (1, place, byte),
        Step::Unfit => (2, 0, 0),
    };
    let [high, low] = u16::try_from(place).expect("a short store").to_be_bytes();
    [answer, high, low, byte]
}

#[cfg(test)]
#[path = "tests/queries.rs"]
mod tests;
