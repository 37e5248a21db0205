//! The cases: what is called, on which tables, and the answer that it is to get. A
//! call changes a terminal in place, which is put back before the next one.

use std::cell::RefCell;
use std::hint::black_box;

use model::answers::PERMITTED;
use model::case::{Call, Case as Put};
use model::defaults::join;
use model::directory::{set_bit, ACL2, CRED, LAMP, ROLES, TARE, WEIGHT, YARD};
use model::examples::{access, asserted, credential, role, uuid, AUTH};
use model::hex;
use model::library::{self, default_lists, Side, LIBRARY};
use model::office::TEXT_MAX;
use model::older::{OldRow, CONVERTED_MAX};
use model::queue::{Queue as RulesQueue, Slot};
use model::record::{compose, Verb, MAY_RETRIEVE, MAY_UPDATE};
use model::rules::REPLY_MAX;
use model::tables::{Access, Credential, Row, State, Subject, TableBytes, Tables, STATE};
use tillerclover::{Tables as Given, Waiting};

use crate::{BY_HAND, PROGRAM};

/// A number that no row has.
const UNUSED: u16 = 999;
/// The wildcard "*".
const STAR: u8 = 1;

/// How many rows the two tables hold.
#[derive(Clone, Copy)]
struct Rows {
    name: &'static str,
    credentials: usize,
    accesses: usize,
}

const EIGHTHS: [&str; 9] = ["empty", "1/8", "2/8", "3/8", "half", "5/8", "6/8", "7/8", "full"];

impl Rows {
    /// As few as a partner's record can be permitted with.
    const FEW: Rows = Rows { name: "few", credentials: 1, accesses: 1 };
    const FULL: Rows = Rows::eighths(8);

    /// That many eighths of either capacity.
    const fn eighths(part: usize) -> Rows {
        Rows {
            name: EIGHTHS[part],
            credentials: Credential::CAPACITY * part / 8,
            accesses: Access::CAPACITY * part / 8,
        }
    }

    /// A terminal with no owner: anyone may read and write the security resources.
    fn ownerless(self) -> Tables {
        Tables {
            credentials: (1..=self.credentials as u16).map(|n| credential(n, uuid(n as u8))).collect(),
            accesses: (1..=self.accesses as u16).map(row).collect(),
            ..Tables::fresh()
        }
    }

    /// One in service, owned by the first credential. The last access row lets the last credential write the tare.
    fn serving(self) -> Tables {
        let mut tables = self.ownerless();
        tables.state = State::Rfnop;
        tables.device_owner = Some(uuid(1));
        if let (Some(sender), Some(last)) = (tables.credentials.last(), tables.accesses.last_mut()) {
            *last = access(last.number, Subject::Uuid(sender.subject), MAY_UPDATE, 0, &[TARE]);
        }
        tables
    }

    /// One in service, in which every partner has asserted two roles; the last access row is for the second role of the
    /// last credential.
    fn asserted(self) -> Tables {
        let mut tables = self.serving();
        for row in &mut tables.credentials {
            row.asserted = [2, 1].map(|authority| asserted(authority, row.number, u32::MAX)).to_vec();
        }
        if let (Some(sender), Some(last)) = (tables.credentials.last(), tables.accesses.last_mut()) {
            last.subject = role(1, sender.number);
        }
        tables
    }

    /// The same as in service, but the last access row lets the last credential read all that a wildcard reaches.
    fn polled(self) -> Tables {
        let mut tables = self.serving();
        if let (Some(sender), Some(last)) = (tables.credentials.last(), tables.accesses.last_mut()) {
            *last = access(last.number, Subject::Uuid(sender.subject), MAY_RETRIEVE, STAR, &[]);
        }
        tables
    }
}

/// Rows of every kind in turn, none of which is for an unauthenticated sender.
fn row(number: u16) -> Access {
    let subject = match number % 4 {
        0 | 1 => Subject::Uuid(uuid(number as u8)),
        2 => role(number, number),
        _ => AUTH,
    };
    access(number, subject, MAY_RETRIEVE, 0, &[WEIGHT, LAMP])
}

/// What is called.
enum Work {
    /// A record is judged, handed in or taken.
    Record(Box<Put>),
    /// The office text is written.
    Text,
    /// A list is tested.
    Test(Vec<u8>),
    /// An older list is converted.
    Convert(Vec<u8>),
}

/// What a call changes.
struct Lent {
    tables: Given,
    queue: Waiting,
    buffer: Box<[u8; TEXT_MAX]>,
}

pub struct Case {
    pub name: &'static str,
    pub tables: &'static str,
    work: Work,
    /// The terminal before a call.
    given: Given,
    queue: Waiting,
    lent: RefCell<Lent>,
    /// Whether a call changes the tables, or the queue: then they are put back before the next one.
    changes: (bool, bool),
}

impl Case {
    /// A record that both sides answer with this number, as the model does.
    fn of(name: &'static str, tables: &'static str, put: Put, answer: u8) -> Case {
        let expected = put.expected();
        for side in [LIBRARY, BY_HAND] {
            let found = side.judge(&put);
            if expected.answer != answer || !expected.same(&found) {
                PROGRAM.stop(format!("{name}, {tables} is to be answered with {answer}, not {}", found.answer));
            }
        }
        let changes = (expected.tables != put.tables, expected.queue != put.queue);
        let (given, queue) = (Given::from_bytes(&put.tables), library::queue(&put.queue));
        Case::new(name, tables, Work::Record(Box::new(put)), given, queue, changes)
    }

    fn new(
        name: &'static str,
        tables: &'static str,
        work: Work,
        given: Given,
        queue: Waiting,
        changes: (bool, bool),
    ) -> Case {
        let lent = RefCell::new(Lent { tables: given, queue: queue.clone(), buffer: Box::new([0; TEXT_MAX]) });
        Case { name, tables, work, given, queue, lent, changes }
    }

    /// The office text of these tables.
    fn text(rows: Rows) -> Case {
        Case::new(
            "text",
            rows.name,
            Work::Text,
            Given::from_bytes(&rows.serving().bytes()),
            Waiting::FRESH,
            (false, false),
        )
    }

    /// What is asked of no terminal.
    fn list(name: &'static str, tables: &'static str, work: Work) -> Case {
        Case::new(name, tables, work, Given::default(), Waiting::FRESH, (false, false))
    }

    pub fn is_changing(&self) -> bool {
        self.changes.0 || self.changes.1
    }

    /// The terminal of the next call.
    pub fn put_back(&self) {
        let lent = &mut *self.lent.borrow_mut();
        if self.changes.0 {
            lent.tables = black_box(self.given);
        }
        if self.changes.1 {
            lent.queue.bytes.copy_from_slice(&black_box(&self.queue).bytes);
        }
    }

    /// What a call gets, in one line: case, tables, function, clock, then a record or a list, and the terminal,
    /// in hexadecimal digits after a dot.
    pub fn input(&self) -> String {
        let (function, clock, bytes): (&str, u32, &[u8]) = match &self.work {
            Work::Record(put) => match put.call {
                Call::Judge => ("judge", put.clock, &put.record),
                Call::HandIn => ("hand_in", put.clock, &put.record),
                Call::Take => ("take", put.clock, &put.record),
            },
            Work::Text => ("access_list", 0, &[]),
            Work::Test(list) => ("test_list", 0, list),
            Work::Convert(file) => ("convert_list", 0, file),
        };
        let (tables, queue) = (hex::write(&self.given.to_bytes()), hex::write(&self.queue.bytes));
        format!("{} {} {function} {clock} .{} .{tables}{queue}", self.name, self.tables, hex::write(bytes))
    }

    /// One call, on a terminal as it was before.
    pub fn call(&self, side: &Side) {
        self.put_back();
        let mut lent = self.lent.borrow_mut();
        let Lent { tables, queue, buffer } = black_box(&mut *lent);
        match black_box(&self.work) {
            Work::Record(put) => call(side, put, tables, queue, &mut buffer[..REPLY_MAX]),
            Work::Text => {
                let listed = black_box((side.access_list)(tables, queue, &mut buffer[..]));
                assert_eq!(listed.answer.number(), PERMITTED);
            }
            Work::Test(list) => {
                let tested = black_box((side.test_list)(list));
                assert_eq!(tested.answer.number(), PERMITTED);
            }
            Work::Convert(file) => {
                let converted = black_box((side.convert_list)(file, &mut buffer[..CONVERTED_MAX]));
                assert_eq!(converted.answer.number(), PERMITTED);
            }
        }
    }
}

fn call(side: &Side, put: &Put, tables: &mut Given, queue: &mut Waiting, reply: &mut [u8]) {
    let defaults = default_lists(&put.defaults);
    match put.call {
        Call::Judge => {
            black_box((side.judge)(tables, queue, defaults, put.clock, &put.record, reply));
        }
        Call::HandIn => {
            black_box((side.hand_in)(tables, queue, &put.record));
        }
        Call::Take => {
            black_box((side.take)(tables, queue, defaults, put.clock, reply));
        }
    }
}

/// All cases but those for the growth with the rows.
pub fn all() -> Vec<Case> {
    let kinds = [Rows::eighths(0), Rows::FEW, Rows::eighths(4), Rows::FULL];
    let mut cases: Vec<Case> = kinds.into_iter().flat_map(of_rows).collect();
    cases.extend(turns());
    cases.extend(lists());
    cases
}

/// The same few cases on tables that hold eighths of their capacity, in rising order.
pub fn growth() -> Vec<Case> {
    [1, 2, 3, 5, 6, 7]
        .into_iter()
        .flat_map(|part| {
            let rows = Rows::eighths(part);
            let few = |case: &Case| ["serve", "acl2", "text"].contains(&case.name);
            of_rows(rows).into_iter().filter(few)
        })
        .collect()
}

/// The cases that these rows allow.
fn of_rows(rows: Rows) -> Vec<Case> {
    let of =
        |name, tables: &TableBytes, record: &[u8], answer| Case::of(name, rows.name, Put::new(tables, record), answer);
    let ownerless = rows.ownerless().bytes();
    let mut cases = security(rows);
    if rows.credentials > 0 {
        let sender = rows.credentials as u16;
        let tare = compose(Verb::Update, TARE, sender, &[0x55; 64]);
        let shown = asserted(1, sender, 0).bytes();
        cases.extend([
            of("serve", &rows.serving().bytes(), &tare, 0),
            of("foreman", &rows.asserted().bytes(), &tare, 0),
            of("poll", &rows.polled().bytes(), &compose(Verb::Retrieve, YARD, sender, &[]), 0),
            of("assert", &rows.asserted().bytes(), &compose(Verb::Update, ROLES, sender, &shown), 0),
        ]);
    }
    cases.push(Case::text(rows));
    let mut unsound = ownerless;
    unsound[STATE] = 9;
    cases.extend([
        of("refuse1", &unsound, &compose(Verb::Retrieve, ACL2, 0, &[]), 1),
        of("refuse2", &ownerless, &[0x40, 0x80, 0x00], 2),
        of("refuse7", &ownerless, &compose(Verb::Update, TARE, UNUSED, &[]), 7),
        of("refuse8", &ownerless, &compose(Verb::Update, WEIGHT, 0, &[]), 8),
    ]);
    cases
}

/// Reads and writes of security resources, on a terminal with no owner.
fn security(rows: Rows) -> Vec<Case> {
    let ownerless = rows.ownerless().bytes();
    let of = |name, record: &[u8]| Case::of(name, rows.name, Put::new(&ownerless, record), 0);
    // A full table takes only a row that it holds already.
    let stored_row = if rows.accesses == Access::CAPACITY { rows.accesses as u16 } else { UNUSED };
    let mut cases = vec![
        of("cred", &compose(Verb::Retrieve, CRED, 0, &[])),
        of("acl2", &compose(Verb::Retrieve, ACL2, 0, &[])),
        of("store", &compose(Verb::Update, ACL2, 0, &row(stored_row).bytes())),
    ];
    if rows.accesses > 0 {
        cases.push(of("remove", &compose(Verb::Delete, ACL2, 0, &[0, 1])));
    }
    cases
}

/// Full tables: a served record of every seat, and the calls that such records may get.
fn turns() -> Vec<Case> {
    let rows = Rows::FULL;
    let sender = rows.credentials as u16;
    let served = compose(Verb::Update, TARE, sender, &[0x55; 64]);
    let others = (0..sender).map(|owner| Slot { owner, record: compose(Verb::Update, WEIGHT, owner, &[0x55; 64]) });
    // The turn is the last row's.
    let last = Some(sender - 1);
    let served_slot = Slot { owner: sender, record: served.clone() };
    let none = Put::new(&rows.serving().bytes(), &served);
    let beside = |slots: Vec<Slot>| Put { queue: RulesQueue { last, slots }.bytes(), ..none.clone() };
    let all: Vec<Slot> = others.clone().chain([served_slot.clone()]).collect();
    let take = |put: Put| Put { call: Call::Take, record: Vec::new(), ..put };
    let hand_in = |put: Put| Put { call: Call::HandIn, ..put };
    vec![
        Case::of("judge25", rows.name, beside(all.clone()), 0),
        Case::of("hand-in0", rows.name, hand_in(none.clone()), 0),
        Case::of("hand-in24", rows.name, hand_in(beside(others.collect())), 0),
        Case::of("take1", rows.name, take(beside(vec![served_slot])), 0),
        Case::of("take25", rows.name, take(beside(all)), 0),
    ]
}

/// Lists of as many rows as the tables hold: to load, and of an older terminal.
fn lists() -> Vec<Case> {
    // Rows whose numbers have one high byte, or one low byte, the worst that numbers can do.
    let list = |step: u16| {
        let rows: Vec<Access> =
            (1..=Access::CAPACITY as u16).map(|place| Access { number: place * step, ..row(place) }).collect();
        Work::Test(join(&rows))
    };
    // A row for anybody becomes two.
    let older = |subject, rows: usize| {
        let row = OldRow { subject, permission: MAY_RETRIEVE, set: set_bit(WEIGHT) };
        Work::Convert(row.bytes().repeat(rows))
    };
    vec![
        Case::list("test", "32-rows", list(1)),
        Case::list("test", "low-byte", list(0x0100)),
        Case::list("convert", "UUIDs", older(Some(uuid(1)), Access::CAPACITY)),
        Case::list("convert", "anybody", older(None, Access::CAPACITY / 2)),
    ]
}
