//! A file of vectors for another program to read.
//!
//! Entries follow one another, each after a tag byte:
//! 0: tables, from now on the current ones: their fields up to the row owners (84
//!    bytes), the credential rows and the access rows. The rows of either kind are
//!    without the zeros after them, and after their length (16 bits);
//! 1: the clock (32 bits), directly after it the record's length (16 bits) and
//!    the record, the length of the buffer (16 bits), then the outcome:
//!    answer, permission (a byte each), payload start and payload length (16 bits
//!    each; start 0 when the length is 0), length of the reply (16 bits), first
//!    row to store and how many (a byte each), the links that the yard answers (64
//!    bits) and their count (a byte), the reply; the tables and the queue afterwards
//!    are the current ones;
//! 2: tables in the same form that the current ones must equal;
//! 3: default lists, of credentials and of accesses, each after its length (a
//!    byte), from now on the current ones. Both are empty at first;
//! 4: a list to load after its length (16 bits), then its test: answer
//!    and row (a byte each);
//! 5: a list of an older terminal after its length (16 bits), the length of the
//!    buffer (16 bits), then the answer (a byte), the length of the result (16
//!    bits) and the result;
//! 6: the queue, from now on the current one, without the zeros at
//!    its end, after its length (16 bits). It is empty at first;
//! 7: a queue in the same form that the current one must equal;
//! 8: a record to hand in after its length (16 bits), then the answer (a byte); the
//!    queue afterwards is the current one;
//! 9: a take: the clock (32 bits), the length of the buffer (16 bits), the
//!    outcome, and the record that is handed out after its length (16 bits); the
//!    tables and the queue afterwards are the current ones.
//! Numbers of 16, 32 and 64 bits have their high byte first.

use crate::answers::PERMITTED;
use crate::case::{Call, Case};
use crate::defaults::Defaults;
use crate::directory::{ACL2, CRED, DIRECTORY, DOXM, LINKS, PSTAT, ROLES, WEIGHT, YARD};
use crate::examples;
use crate::files;
use crate::generate::{self, Style};
use crate::hex;
use crate::histogram::Histogram;
use crate::lists;
use crate::older::{self, OldRow};
use crate::provisioning::{test, Tested};
use crate::queue::{self, Queue, QueueBytes, Slot};
use crate::random::Random;
use crate::record::{compose, target_body, Verb, MAY_NOTIFY, MAY_RETRIEVE, MAY_UPDATE};
use crate::rules::{judge, Outcome, Refusal, REPLY_MAX};
use crate::spoil::{
    ACCESS_FAULTS, ASSERTED_FAULTS, CREDENTIAL_FAULTS, FILE_FAULTS, LOAD_FAULTS, QUEUE_FAULTS, TABLE_FAULTS,
};
use crate::tables::{
    Access, Credential, Period, Row, State, Subject, TableBytes, Tables, ACCESSES, CREDENTIALS, MINUS, PLUS, RESET,
    SIZE, STAR,
};

pub const TABLES: u8 = 0;
pub const RECORD: u8 = 1;
pub const CHECK: u8 = 2;
pub const DEFAULTS: u8 = 3;
pub const LIST: u8 = 4;
pub const OLDER: u8 = 5;
pub const QUEUE: u8 = 6;
pub const CHECK_QUEUE: u8 = 7;
pub const HAND_IN: u8 = 8;
pub const TAKE: u8 = 9;

/// The fewest bytes that random sessions need.
pub const LEAST: usize = 260_000;
const RECORDS_BETWEEN_CHECKS: usize = 100;

pub struct Vectors {
    pub bytes: Vec<u8>,
    pub records: usize,
    pub tables: usize,
    pub checks: usize,
    pub lists: usize,
    pub tested: usize,
    pub converted: usize,
    pub hand_ins: usize,
    pub takes: usize,
    pub histogram: Histogram,
    current: Option<TableBytes>,
    queue: QueueBytes,
    defaults: Defaults,
    unchecked: usize,
}

impl Vectors {
    /// Vectors of at most `limit` bytes.
    pub fn build(seed: u64, limit: usize) -> Vectors {
        let mut random = Random::part(seed, 2);
        let mut vectors = Vectors {
            bytes: Vec::new(),
            records: 0,
            tables: 0,
            checks: 0,
            lists: 0,
            tested: 0,
            converted: 0,
            hand_ins: 0,
            takes: 0,
            histogram: Histogram::new(),
            current: None,
            queue: QueueBytes::empty(),
            defaults: Defaults::none(),
            unchecked: 0,
        };
        // By their tables, and refusals first, so that tables are written once.
        let mut examples = examples::all();
        examples.sort_by_key(|example| (example.tables, example.answer == PERMITTED));
        for example in examples {
            vectors.set_tables(&example.tables);
            vectors.record(example.clock, &example.record, example.capacity);
        }
        vectors.check();
        vectors.headers();
        vectors.replies(&mut random);
        vectors.yards();
        vectors.roles();
        vectors.default_lists(&mut random);
        vectors.faults(&mut random);
        vectors.turns();
        vectors.queue_faults(&mut Random::part(seed, 10));
        vectors.lists_to_load(&mut Random::part(seed, 7));
        vectors.older_lists(&mut Random::part(seed, 9));
        vectors.sessions(&mut random, limit);
        vectors
    }

    fn set_tables(&mut self, tables: &TableBytes) {
        if self.current.as_ref() != Some(tables) {
            self.bytes.push(TABLES);
            self.bytes.extend(short_form(tables));
            self.tables += 1;
            self.current = Some(*tables);
        }
    }

    fn set_defaults(&mut self, defaults: &Defaults) {
        if self.defaults != *defaults {
            self.bytes.push(DEFAULTS);
            for list in [&defaults.default_creds, &defaults.default_aces] {
                self.bytes.push(list.len().try_into().expect("a short list"));
                self.bytes.extend(list);
            }
            self.lists += 1;
            self.defaults = defaults.clone();
        }
    }

    fn set_queue(&mut self, queue: &QueueBytes) {
        if self.queue != *queue {
            self.bytes.push(QUEUE);
            self.queue_bytes(queue);
            self.queue = queue.clone();
        }
    }

    fn queue_bytes(&mut self, queue: &QueueBytes) {
        self.behind_its_length(queue.trimmed());
    }

    fn behind_its_length(&mut self, bytes: &[u8]) {
        self.bytes.extend((bytes.len() as u16).to_be_bytes());
        self.bytes.extend(bytes);
    }

    /// The record as a case, with a buffer that fits any reply.
    fn case(&self, clock: u32, record: &[u8]) -> Case {
        let (defaults, queue) = (self.defaults.clone(), self.queue.clone());
        Case { clock, defaults, queue, ..Case::new(&self.current.expect("tables come first"), record) }
    }

    fn record(&mut self, clock: u32, record: &[u8], capacity: usize) {
        self.put(&Case { capacity, ..self.case(clock, record) });
    }

    fn hand_in(&mut self, record: &[u8]) {
        self.put(&Case { call: Call::HandIn, ..self.case(0, record) });
    }

    fn take(&mut self, clock: u32, capacity: usize) {
        self.put(&Case { call: Call::Take, capacity, ..self.case(clock, &[]) });
    }

    /// The call of a case on the current tables and queue, and its outcome.
    fn put(&mut self, case: &Case) {
        let outcome = judge(case);
        match case.call {
            Call::Judge => {
                self.bytes.push(RECORD);
                self.bytes.extend(case.clock.to_be_bytes());
                self.behind_its_length(&case.record);
                self.bytes.extend((case.capacity as u16).to_be_bytes());
                self.outcome(&outcome);
                self.records += 1;
            }
            Call::HandIn => {
                self.bytes.push(HAND_IN);
                self.behind_its_length(&case.record);
                self.bytes.push(outcome.response.answer);
                self.hand_ins += 1;
            }
            Call::Take => {
                self.bytes.push(TAKE);
                self.bytes.extend(case.clock.to_be_bytes());
                self.bytes.extend((case.capacity as u16).to_be_bytes());
                self.outcome(&outcome);
                self.behind_its_length(&outcome.taken);
                self.takes += 1;
            }
        }
        self.histogram.add(case, &outcome);
        let (tables, queue) = outcome.after();
        self.current = Some(tables);
        self.queue = queue;
        self.unchecked += 1;
        if self.unchecked == RECORDS_BETWEEN_CHECKS {
            self.check();
        }
    }

    fn outcome(&mut self, outcome: &Outcome) {
        let length = outcome.response.payload.len() as u16;
        let start = if length == 0 { 0 } else { outcome.response.payload.start as u16 };
        self.bytes.extend([outcome.response.answer, outcome.response.permission]);
        self.bytes.extend(start.to_be_bytes());
        self.bytes.extend(length.to_be_bytes());
        self.bytes.extend((outcome.response.reply.len() as u16).to_be_bytes());
        self.bytes.extend([outcome.response.store.start as u8, outcome.response.store.len() as u8]);
        self.bytes.extend(outcome.response.links.to_be_bytes());
        self.bytes.push(outcome.response.link_count() as u8);
        self.bytes.extend(&outcome.response.reply);
    }

    fn check(&mut self) {
        if self.unchecked > 0 {
            self.bytes.push(CHECK);
            self.bytes.extend(short_form(&self.current.expect("tables come first")));
            self.bytes.push(CHECK_QUEUE);
            self.queue_bytes(&self.queue.clone());
            self.checks += 1;
            self.unchecked = 0;
        }
    }

    /// Each verb on each resource, from nobody and from the owner.
    fn headers(&mut self) {
        for (tables, senders) in [
            (Tables::fresh(), &[0, 5][..]),
            (examples::owned(State::Rfpro), &[5]),
            (examples::owned(State::Rfnop), &[0, 5]),
        ] {
            self.set_tables(&tables.bytes());
            // DELETE last: it takes the owner's credential away.
            for verb in [0, 1, 2, 4, 5, 6, 7, 3] {
                for resource in DIRECTORY.iter().filter(|resource| verb < 5 || resource.number < ACL2) {
                    for &sender in senders {
                        let mut record = compose(Verb::Create, resource.number, sender, &[]);
                        record[0] |= verb << 5;
                        self.record(0, &record, REPLY_MAX);
                    }
                }
            }
        }
        self.check();
    }

    /// Replies of every resource, with buffers that just fit and just don't.
    fn replies(&mut self, random: &mut Random) {
        let full = Tables { state: State::Rfotm, device_owner: None, ..generate::full_sound(random) };
        let (credentials, accesses) = rows(random);
        let small = Tables { credentials, accesses, ..Tables::fresh() };
        for tables in [full, small] {
            self.set_tables(&tables.bytes());
            for resource in DOXM..=ACL2 {
                let record = compose(Verb::Retrieve, resource, 0, &[]);
                let fits = judge(&self.case(0, &record)).response.reply.len();
                for capacity in [fits, fits - 1, 0, fits + 1] {
                    self.record(u32::MAX, &record, capacity);
                }
                self.record(0, &compose(Verb::Observe, resource, 0, &[]), 0);
            }
        }
        self.check();
    }

    /// Polls of the yard by partners who have one link more each, some of them
    /// in a period.
    fn yards(&mut self) {
        let mut tables = examples::owned(State::Rfnop);
        tables.accesses.push(examples::access(1, examples::AUTH, MAY_RETRIEVE | MAY_UPDATE, 0, &[YARD]));
        for link in LINKS {
            let number = u16::from(link);
            let subject = examples::uuid(link);
            tables.credentials.push(examples::credential(number, subject));
            let chosen: Vec<u8> = (8..=link).collect();
            let period = Period { first: 100, last: 100 + u32::from(link % 2) };
            let row = examples::access(number, Subject::Uuid(subject), MAY_RETRIEVE, 0, &chosen);
            tables.accesses.push(Access { period, ..row });
            let wildcards = (link - 8) % 8;
            tables.accesses.push(examples::access(number + 10, Subject::Uuid(subject), MAY_UPDATE, wildcards, &[]));
        }
        self.set_tables(&tables.bytes());
        for sender in LINKS.map(u16::from).chain([0, 5]) {
            for clock in [99, 100, 101, 102] {
                self.record(clock, &compose(Verb::Retrieve, YARD, sender, &[]), 0);
            }
            for verb in Verb::ALL {
                self.record(100, &compose(verb, YARD, sender, &[0x59]), 0);
            }
        }
        self.check();
    }

    /// Partners who show roles, read them, use them and show more of them.
    fn roles(&mut self) {
        let mut tables = examples::owned(State::Rfnop);
        tables.accesses.push(examples::access(1, examples::role(2, 7), MAY_RETRIEVE, 0, &[2, 8, YARD]));
        tables.accesses.push(examples::access(2, examples::role(2, 8), MAY_UPDATE | MAY_NOTIFY, STAR, &[WEIGHT]));
        let shown = [examples::asserted(2, 7, 100), examples::asserted(2, 8, 200)];
        for (number, count) in [(6, 0), (7, 1), (8, 2)] {
            let row = examples::credential(number, examples::uuid(0x66));
            tables.credentials.push(Credential { asserted: shown[..count].to_vec(), ..row });
        }
        self.set_tables(&tables.bytes());
        const SENDERS: [u16; 5] = [0, 5, 6, 7, 8];
        for clock in [0, 99, 100, 101, 200, 201] {
            for sender in SENDERS {
                for resource in [CRED, WEIGHT, YARD] {
                    self.record(clock, &compose(Verb::Retrieve, resource, sender, &[]), 0);
                }
                for capacity in [7, 8, 15, 16] {
                    self.record(clock, &compose(Verb::Retrieve, ROLES, sender, &[]), capacity);
                }
            }
        }
        // Each keeps what the one before left.
        for clock in [99, 100, 101, 200, 201] {
            for sender in SENDERS {
                for (number, last) in [(8, clock), (9, clock + 1), (7, clock - 1), (9, clock)] {
                    let body = examples::asserted(2, number, last).bytes();
                    self.record(clock, &compose(Verb::Update, ROLES, sender, &body), 0);
                }
                self.record(clock, &compose(Verb::Retrieve, ROLES, sender, &[]), REPLY_MAX);
            }
            self.check();
        }
        for verb in Verb::ALL {
            for length in [7, 8, 9, 16] {
                self.record(0, &compose(verb, ROLES, 8, &vec![0; length]), 0);
            }
        }
        self.check();
    }

    /// Resets with lists of many kinds; the tables are read back.
    fn default_lists(&mut self, random: &mut Random) {
        let (credentials, accesses) = rows(random);
        let mut lists = Vec::new();
        for first in 0..=3 {
            for second in 0..=3 {
                lists.push(Defaults::of(&credentials[..first], &accesses[..second]));
            }
        }
        let good = Defaults::of(&credentials[..2], &accesses[1..]);
        for (_, fault) in CREDENTIAL_FAULTS {
            let mut list = good.clone();
            fault(&mut list.default_creds[Credential::BODY_SIZE..], random);
            lists.push(list);
        }
        for (_, fault) in ACCESS_FAULTS {
            let mut list = good.clone();
            fault(&mut list.default_aces[..Access::BODY_SIZE], random);
            lists.push(list);
        }
        for length in [1, 21, 22, 24, 28, 35, 37, 42, 45] {
            let cut = |list: &[u8]| list[..length].to_vec();
            lists.push(Defaults { default_creds: cut(&good.default_creds), ..good.clone() });
            lists.push(Defaults { default_aces: cut(&good.default_aces), ..good.clone() });
        }
        // Bodies without an authority or a period are no rows.
        let short = credentials[..2].iter().flat_map(Credential::short_body).collect();
        lists.push(Defaults { default_creds: short, ..good.clone() });
        let short = accesses[..2].iter().flat_map(Access::short_body).collect();
        lists.push(Defaults { default_aces: short, ..good.clone() });
        let mut twice = good.clone();
        twice.default_creds.copy_within(..2, Credential::BODY_SIZE);
        lists.push(twice.clone());
        twice.default_aces.copy_within(..2, Access::BODY_SIZE);
        lists.push(twice.clone());
        lists.push(Defaults { default_creds: good.default_creds.clone(), ..twice });
        self.set_tables(&examples::owned(State::Rfnop).bytes());
        self.set_defaults(&good);
        self.record(0, &compose(Verb::Update, PSTAT, 5, &target_body(RESET)), 0);
        self.check();
        for list in &lists {
            self.set_defaults(list);
            // Nobody owns fresh tables, so nobody has to be a partner.
            self.record(0, &compose(Verb::Update, PSTAT, 0, &target_body(RESET)), 0);
            for resource in [CRED, ACL2] {
                self.record(0, &compose(Verb::Retrieve, resource, 0, &[]), REPLY_MAX);
            }
        }
        self.set_defaults(&good);
        for (resource, target) in [(2, false), (3, false), (1, true)] {
            let record = if target {
                compose(Verb::Update, resource, 0, &target_body(RESET))
            } else {
                compose(Verb::Delete, resource, 0, &[])
            };
            self.record(0, &record, 0);
            self.check();
        }
        self.set_defaults(&Defaults::none());
    }

    /// Tables that are not sound, by each fault once.
    fn faults(&mut self, random: &mut Random) {
        let mut faulty = Vec::new();
        for (_, fault) in TABLE_FAULTS {
            loop {
                let mut stored = generate::any_sound(random).bytes();
                if fault(&mut stored, random) {
                    faulty.push(stored);
                    break;
                }
            }
        }
        let (credentials, accesses) = rows(random);
        for (_, fault) in CREDENTIAL_FAULTS {
            let mut stored = Tables { credentials: credentials.clone(), ..Tables::fresh() }.bytes();
            let place = CREDENTIALS.start + Credential::ROW_SIZE;
            fault(&mut stored[place..place + Credential::BODY_SIZE], random);
            faulty.push(stored);
        }
        for (_, fault) in ASSERTED_FAULTS {
            let mut stored = Tables { credentials: credentials.clone(), ..Tables::fresh() }.bytes();
            let place = CREDENTIALS.start + Credential::ROW_SIZE;
            fault(&mut stored[place + Credential::BODY_SIZE..place + Credential::ROW_SIZE], random);
            faulty.push(stored);
        }
        for (_, fault) in ACCESS_FAULTS {
            let mut stored = Tables { accesses: accesses.clone(), ..Tables::fresh() }.bytes();
            let place = ACCESSES.start + Access::ROW_SIZE;
            fault(&mut stored[place..place + Access::BODY_SIZE], random);
            faulty.push(stored);
        }
        for stored in faulty {
            self.set_tables(&stored);
            for style in [Style::Purposeful, Style::Mixed, Style::Noise] {
                let clock = generate::clock(random, &stored);
                let record = generate::record(random, style, &stored, clock);
                self.record(clock, &record, random.below(40));
            }
        }
        self.check();
    }

    /// Partners who hand records in, one of whom floods; rows that come and go
    /// while records wait.
    fn turns(&mut self) {
        let mut tables = examples::owned(State::Rfnop);
        tables.accesses.push(examples::access(1, examples::AUTH, MAY_RETRIEVE | MAY_UPDATE, 0, &[8, YARD]));
        tables.accesses.push(examples::access(2, examples::ANON, MAY_RETRIEVE, 0, &[WEIGHT]));
        for number in [9, 3, 7] {
            tables.credentials.push(examples::credential(number, examples::uuid(number as u8)));
        }
        self.set_tables(&tables.bytes());
        self.take(0, 0);
        let weigh = |place: u16| compose(Verb::Update, WEIGHT, place, &place.to_be_bytes());
        for place in [9, 3, 9, 0, 5, 7, 8, 3] {
            self.hand_in(&weigh(place));
        }
        self.check();
        for _ in 0..8 {
            self.take(0, 0);
            self.hand_in(&weigh(9));
        }
        for record in ["520000", "b2000009", "52010009", "42000009", "51400009", "52000008"] {
            self.hand_in(&hex::literal(record));
        }
        for (place, resource) in [(7, YARD), (3, 14), (0, 9), (5, 2)] {
            self.hand_in(&compose(Verb::Retrieve, resource, place, &[]));
        }
        for capacity in [0, 100, 108, 107, 0, 0] {
            self.take(0, capacity);
        }
        self.check();
        // Each change with all slots occupied and each round, then a take.
        let tables = Tables { state: State::Rfpro, ..tables };
        let owners = [0, 5, 9, 3, 7];
        let slot = |&owner: &u16| Slot { owner, record: weigh(owner) };
        for last in [None, Some(99), Some(0), Some(9)] {
            for body in [&[][..], &[0, 9], &[3; 16]] {
                self.set_tables(&tables.bytes());
                self.set_queue(&Queue { last, slots: owners.iter().rev().map(slot).collect() }.bytes());
                self.record(0, &compose(Verb::Delete, CRED, 5, body), 0);
                self.check();
                self.take(0, 0);
            }
            self.set_tables(&tables.bytes());
            self.set_queue(&Queue { last, slots: vec![slot(&9)] }.bytes());
            for number in [9, 99, 98] {
                let row = examples::credential(number, examples::uuid(0x98));
                self.record(0, &compose(Verb::Update, CRED, 5, &row.bytes()), 0);
            }
            self.hand_in(&weigh(98));
            self.hand_in(&compose(Verb::Delete, CRED, 5, &[0, 5]));
            (0..3).for_each(|_| self.take(0, 0));
            self.check();
        }
        self.set_queue(&QueueBytes::empty());
        for record in
            [compose(Verb::Update, PSTAT, 5, &target_body(RESET)), compose(Verb::Update, PSTAT, 0, &target_body(RESET))]
        {
            self.set_tables(&tables.bytes());
            self.hand_in(&weigh(3));
            self.hand_in(&record);
            (0..3).for_each(|_| self.take(0, 0));
            self.record(0, &record, 0);
            self.check();
        }
    }

    /// A queue that is not sound, by each fault once.
    fn queue_faults(&mut self, random: &mut Random) {
        let (credentials, accesses) = rows(random);
        let tables = Tables { credentials, accesses, ..Tables::fresh() };
        self.set_tables(&tables.bytes());
        for (_, fault) in QUEUE_FAULTS {
            let mut queue_bytes = generate::queue(random, &tables).bytes().whole();
            while !fault(&mut queue_bytes, random) {
                queue_bytes = generate::queue(random, &tables).bytes().whole();
            }
            self.set_queue(&QueueBytes::from_bytes(&queue_bytes));
            self.record(0, &compose(Verb::Retrieve, PSTAT, 0, &[]), 17);
            self.hand_in(&compose(Verb::Retrieve, PSTAT, 0, &[]));
            self.take(0, REPLY_MAX);
        }
        self.check();
        self.set_queue(&QueueBytes::empty());
    }

    fn list_to_load(&mut self, list: &[u8]) {
        let Tested { answer, row } = test(list);
        self.bytes.push(LIST);
        self.bytes.extend((list.len() as u16).to_be_bytes());
        self.bytes.extend(list);
        self.bytes.extend([answer, row as u8]);
        self.tested += 1;
    }

    /// Lists to load: lengths at the borders, every fault in a short list and in
    /// a full one, and rows that open each security resource.
    fn lists_to_load(&mut self, random: &mut Random) {
        for rows in [0, 1, 2, 31, 32, 33] {
            self.list_to_load(&lists::good_list(random, rows));
        }
        for length in [1, 28, 35, 37, 71] {
            let list = lists::good_list(random, 2);
            self.list_to_load(&list[..length]);
        }
        for rows in [4, 32] {
            for (_, _, fault) in LOAD_FAULTS {
                let mut list = lists::good_list(random, rows);
                fault(&mut list, random);
                self.list_to_load(&list);
            }
        }
        for (_, fault) in ACCESS_FAULTS {
            let mut list = lists::good_list(random, 3);
            fault(&mut list[Access::BODY_SIZE..2 * Access::BODY_SIZE], random);
            self.list_to_load(&list);
        }
        for resource in DIRECTORY.iter().map(|resource| resource.number) {
            for (subject, permission) in [(examples::AUTH, 4), (examples::ANON, 9), (examples::role(0, 7), 18)] {
                self.list_to_load(&examples::access(7, subject, permission, PLUS | MINUS | STAR, &[resource]).bytes());
            }
        }
    }

    fn older_list(&mut self, bytes: &[u8], capacity: usize) {
        let mut rows = vec![0; capacity];
        let (answer, length) = match older::write(bytes, &mut rows) {
            Ok(length) => (0, length),
            Err(reason) => (reason as u8, 0),
        };
        self.bytes.push(OLDER);
        self.bytes.extend((bytes.len() as u16).to_be_bytes());
        self.bytes.extend(bytes);
        self.bytes.extend((capacity as u16).to_be_bytes());
        self.bytes.push(answer);
        self.bytes.extend((length as u16).to_be_bytes());
        self.bytes.extend(&rows[..length]);
        self.converted += 1;
    }

    /// Lists of older terminals: rows of either kind, the borders of each check,
    /// and every fault.
    fn older_lists(&mut self, random: &mut Random) {
        for rows in [0, 1, 2, 3, 5] {
            for _ in 0..3 {
                let file = files::good_file(random, rows);
                let fits = older::convert(&file).expect("few rows").len() * Access::BODY_SIZE;
                for capacity in [fits, fits.saturating_sub(1), fits + 9] {
                    self.older_list(&file, capacity);
                }
            }
        }
        let row = |subject| OldRow { subject, permission: 21, set: DIRECTORY[5].bit() }.bytes();
        let (theirs, anybodys) = (row(Some(examples::uuid(0x22))), row(None));
        for (uuids, stars) in [(32, 0), (33, 0), (0, 16), (0, 17), (31, 1), (30, 1)] {
            let file = [theirs.repeat(uuids), anybodys.repeat(stars)].concat();
            self.older_list(&file, older::CONVERTED_MAX);
        }
        self.older_list(&theirs.repeat(32), older::CONVERTED_MAX - 1);
        self.older_list(&theirs.repeat(33), 0);
        for rows in [3, 33] {
            for (_, fault) in FILE_FAULTS {
                let mut file = files::good_file(random, rows);
                fault(&mut file, random);
                self.older_list(&file, if rows == 3 { 300 } else { 0 });
            }
        }
        for resource in 0..64 {
            let old = OldRow { subject: None, permission: resource % 32, set: 1 << (63 - resource) };
            self.older_list(&old.bytes(), 2 * Access::BODY_SIZE);
        }
    }

    /// Random sessions from fresh, sound and full tables in turn.
    fn sessions(&mut self, random: &mut Random, limit: usize) {
        // For new tables and queue, a longest record and reply, and a last check.
        let spare = 3 * (SIZE + queue::SIZE) + 2000;
        let mut turn = 0;
        while self.bytes.len() + spare < limit {
            let defaults = generate::defaults(random);
            if defaults.default_creds.len() <= 90 && defaults.default_aces.len() <= 110 {
                self.set_defaults(&defaults);
            }
            let start = match turn % 3 {
                0 => self.defaults.fresh().bytes(),
                1 => generate::full_sound(random).bytes(),
                _ => generate::any_sound(random).bytes(),
            };
            turn += 1;
            self.set_tables(&start);
            self.set_queue(&QueueBytes::empty());
            for _ in 0..random.between(60, 160) {
                if self.bytes.len() + spare >= limit {
                    break;
                }
                let style = random.weighted(&[(45, Style::Purposeful), (35, Style::Mixed), (20, Style::Damaged)]);
                let tables = self.current.expect("set above");
                let clock = generate::clock(random, &tables);
                let record = generate::record(random, style, &tables, clock);
                // Long records and replies would use up the file, and most
                // refusals for want of permission are alike.
                let call = if turn % 2 == 0 { random.pick(&Call::ALL) } else { Call::Judge };
                let case = Case { call, ..self.case(clock, if call == Call::Take { &[] } else { &record }) };
                let outcome = judge(&case);
                let dull = outcome.response.answer == Refusal::NotPermitted as u8 && random.chance(70);
                let long =
                    record.len() > 40 && random.chance(85) || outcome.response.reply.len() > 90 && random.chance(90);
                if !dull && !long {
                    let capacity = generate::capacity(random, &case);
                    self.put(&Case { capacity, ..case });
                }
            }
        }
        self.check();
        self.set_queue(&QueueBytes::empty());
    }
}

/// Tables without the zeros after the rows of either kind.
pub fn short_form(tables: &TableBytes) -> Vec<u8> {
    let mut bytes = tables[..CREDENTIALS.start].to_vec();
    for rows in [&tables[CREDENTIALS], &tables[ACCESSES]] {
        let used = rows.iter().rposition(|&byte| byte != 0).map_or(0, |last| last + 1);
        bytes.extend((used as u16).to_be_bytes());
        bytes.extend(&rows[..used]);
    }
    bytes
}

fn rows(random: &mut Random) -> (Vec<Credential>, Vec<Access>) {
    let mut credentials = Vec::new();
    let mut accesses = Vec::new();
    for number in 1..=3 {
        let mut credential = generate::credential(random, &[]);
        credential.number = number;
        credentials.push(credential);
        let mut access = generate::access(random, &[]);
        access.number = number;
        accesses.push(access);
    }
    (credentials, accesses)
}

#[cfg(test)]
#[path = "tests/vectors.rs"]
mod tests;
