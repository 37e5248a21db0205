//! Known answers for the self test of include/tillerclover_self_test.h: a few dozen
//! calls, one after the other from a new terminal, and what comes of each.
//!
//! A step is a call (a byte), its answer (a byte), a digest of all else that it
//! gives (32 bits), the clock (32 bits), and its bytes after their length (a byte):
//! a record, rows, a file or a list of senders.

use crate::call::{Call, Case};
use crate::case::Seen;
use crate::defaults::Defaults;
use crate::directory::{ACL2, CRED, DOXM, LAMP, PSTAT, ROLES, TARE, TICKET, WEIGHT, YARD};
use crate::isolation;
use crate::office;
use crate::older::{self, OldRow};
use crate::provisioning;
use crate::queue::{Queue, QueueBytes};
use crate::record::{compose, device_owner_body, target_body, Verb, MAY_ALL, MAY_RETRIEVE, MAY_UPDATE};
use crate::rules::REPLY_MAX;
use crate::tables::{
    read_uuid, Access, Asserted, Connection, Credential, Period, Role, Row, Subject, TableBytes, Tables, Uuid,
    Wildcards, RESET, RFNOP, RFPRO, SRESET, STATE,
};

/// What a step calls; the value is its number.
#[derive(Clone, Copy, Debug, PartialEq, Eq)]
pub enum Asked {
    Judge = 0,
    HandIn = 1,
    Take = 2,
    /// Judges with a buffer of 8 bytes.
    JudgeShort = 3,
    AccessList = 4,
    TestList = 5,
    ConvertList = 6,
    Isolated = 7,
    Clear = 8,
    /// The first byte of the tables is changed by these bits; no call.
    Spoil = 9,
    IsSound = 10,
}

/// A call, and what comes of it.
pub struct Step {
    pub what: &'static str,
    pub asked: Asked,
    pub clock: u32,
    pub bytes: Vec<u8>,
    pub answer: u8,
    pub digest: u32,
}

/// FNV-1a of 32 bits.
struct Digest(u32);

impl Digest {
    fn bytes(&mut self, bytes: &[u8]) {
        for &byte in bytes {
            self.0 = (self.0 ^ u32::from(byte)).wrapping_mul(16_777_619);
        }
    }

    fn number(&mut self, number: u64) {
        self.bytes(&number.to_be_bytes());
    }
}

/// The terminal as the steps leave it.
struct Terminal {
    tables: TableBytes,
    queue: QueueBytes,
    steps: Vec<Step>,
}

const OWNER: u16 = 5;
const HAULIER: u16 = 7;
const FOREMAN: u16 = 300;
const SHORT: usize = 8;

fn uuid(byte: u8) -> Uuid {
    read_uuid(&[byte; 16]).expect("it is not nil")
}

fn cred(number: u16, subject: u8, role: Option<Role>) -> Vec<u8> {
    Credential { number, subject: uuid(subject), role, kind: 1, asserted: Vec::new() }.bytes()
}

fn ace(number: u16, subject: Subject, permission: u8, wildcards: u8, resources: &[u8], period: Period) -> Vec<u8> {
    let set = resources.iter().map(|resource| 1 << (63 - resource)).sum();
    Access { number, subject, permission, wildcards: Wildcards::from_number(wildcards), set, period }.bytes()
}

fn role(authority: u16, number: u16) -> Role {
    Role { authority, number }
}

fn asserted(number: u16, last: u32) -> Vec<u8> {
    Asserted { role: role(2, number), last }.bytes()
}

impl Terminal {
    fn step(&mut self, what: &'static str, asked: Asked, clock: u32, bytes: &[u8]) {
        let mut digest = Digest(2_166_136_261);
        let answer = self.call(asked, clock, bytes, &mut digest);
        digest.bytes(&self.tables);
        digest.bytes(&self.queue.whole());
        assert!(bytes.len() < 256, "{what}: a length has a byte");
        self.steps.push(Step { what, asked, clock, bytes: bytes.to_vec(), answer, digest: digest.0 });
    }

    fn judge(&mut self, what: &'static str, clock: u32, record: &[u8]) {
        self.step(what, Asked::Judge, clock, record);
    }

    fn call(&mut self, asked: Asked, clock: u32, bytes: &[u8], digest: &mut Digest) -> u8 {
        let mut buffer = vec![0; REPLY_MAX];
        match asked {
            Asked::Judge => self.record(Call::Judge, clock, bytes, REPLY_MAX, digest),
            Asked::JudgeShort => self.record(Call::Judge, clock, bytes, SHORT, digest),
            Asked::HandIn => self.record(Call::HandIn, clock, bytes, 0, digest),
            Asked::Take => self.record(Call::Take, clock, &[], REPLY_MAX, digest),
            Asked::AccessList => {
                let written = office::write(&self.tables, &self.queue, &mut buffer).map_err(|fault| fault as u8);
                text(written, &buffer, digest)
            }
            Asked::ConvertList => {
                let written = older::write(bytes, &mut buffer).map_err(|fault| fault as u8);
                text(written, &buffer, digest)
            }
            Asked::TestList => {
                let tested = provisioning::test(bytes);
                digest.number(tested.row as u64);
                tested.answer
            }
            Asked::Isolated => {
                let isolation = isolation::ask(&self.tables, bytes);
                digest.number(isolation.entry as u64);
                digest.number(isolation.row as u64);
                isolation.reason
            }
            Asked::Clear => {
                (self.tables, self.queue) = (Defaults::none().fresh().bytes(), QueueBytes::empty());
                0
            }
            Asked::Spoil => {
                self.tables[STATE] ^= bytes[0];
                0
            }
            Asked::IsSound => Tables::read(&self.tables).is_ok_and(|t| Queue::read(&self.queue, &t).is_ok()).into(),
        }
    }

    fn record(&mut self, call: Call, clock: u32, record: &[u8], capacity: usize, digest: &mut Digest) -> u8 {
        let (tables, queue) = (self.tables, self.queue.clone());
        let defaults = Defaults::none();
        let case = Case { call, tables, queue, clock, record: record.to_vec(), capacity, defaults };
        let seen = case.expected();
        outcome(&seen, digest);
        digest.number(seen.taken as u64);
        digest.bytes(&seen.record[..seen.taken]);
        let answer = seen.answer;
        (self.tables, self.queue) = seen.after();
        answer
    }
}

/// The words after the answer, and the reply.
fn outcome(seen: &Seen, digest: &mut Digest) {
    let offset = if seen.payload.is_empty() { 0 } else { seen.payload.start };
    digest.number(seen.permission.into());
    digest.number(offset as u64);
    digest.number(seen.payload.len() as u64);
    digest.number(seen.reply as u64);
    digest.number(seen.store_table.into());
    digest.number(seen.store_first as u64);
    digest.number(seen.store_count as u64);
    digest.number(seen.links);
    digest.number(seen.link_count as u64);
    digest.bytes(&seen.buffer[..seen.reply]);
}

/// The length of a text or of rows in the buffer, and its bytes.
fn text(written: Result<usize, u8>, buffer: &[u8], digest: &mut Digest) -> u8 {
    let length = written.unwrap_or(0);
    digest.number(length as u64);
    digest.bytes(&buffer[..length]);
    written.err().unwrap_or(0)
}

/// All steps, in their order.
pub fn steps() -> Vec<Step> {
    let (tables, queue) = (Defaults::none().fresh().bytes(), QueueBytes::empty());
    let mut x = Terminal { tables, queue, steps: Vec::new() };
    set_up(&mut x);
    serve(&mut x);
    wait(&mut x);
    take_down(&mut x);
    x.steps
}

/// From a new terminal to one in service, and what is refused on the way.
fn set_up(x: &mut Terminal) {
    x.step("a new terminal", Asked::IsSound, 0, &[]);
    x.judge("too short", 1, &[0x40, 0x80, 0]);
    x.judge("no verb", 1, &[0xA0, 0, 0, 0]);
    x.judge("a zero bit", 1, &[0x20, 0x01, 0, 0]);
    x.judge("a number in clear", 1, &[0x20, 0, 0, 9]);
    x.judge("no such resource", 1, &[0x2F, 0xC0, 0, 0]);
    x.judge("no such partner", 1, &compose(Verb::Retrieve, DOXM, 9, &[]));
    x.judge("the owner's row", 2, &compose(Verb::Update, CRED, 0, &cred(OWNER, 1, None)));
    x.judge("a haulier's row", 2, &compose(Verb::Update, CRED, 0, &cred(HAULIER, 2, None)));
    x.judge("a foreman's row", 2, &compose(Verb::Update, CRED, 0, &cred(FOREMAN, 3, Some(role(0, 6)))));
    let season = Period { first: 1000, last: 2000 };
    let hauliers = ace(1, Subject::Uuid(uuid(2)), MAY_UPDATE, 0, &[TARE], season);
    x.judge("a row with a season", 2, &compose(Verb::Update, ACL2, 0, &hauliers));
    let of_role = ace(2, Subject::Role(role(2, 9)), MAY_ALL, 0, &[LAMP, TICKET], Period::ALWAYS);
    x.judge("a row of a role", 2, &compose(Verb::Update, ACL2, 0, &of_role));
    let of_all = ace(3, Subject::Connection(Connection::AuthCrypt), MAY_RETRIEVE, 1, &[], Period::ALWAYS);
    x.judge("a row with a wildcard", 2, &compose(Verb::Update, ACL2, 0, &of_all));
    let in_clear = ace(4, Subject::Connection(Connection::AnonClear), MAY_RETRIEVE, 2, &[WEIGHT], Period::ALWAYS);
    x.judge("a row in clear", 2, &compose(Verb::Update, ACL2, 0, &in_clear[..28]));
    x.judge("half a row", 2, &compose(Verb::Update, ACL2, 0, &hauliers[..20]));
    x.judge("the owner", 2, &compose(Verb::Update, DOXM, 0, &device_owner_body(Some(uuid(1)))));
    x.judge("nobody's right", 2, &compose(Verb::Retrieve, PSTAT, HAULIER, &[]));
    x.judge("no move to RFNOP", 2, &compose(Verb::Update, PSTAT, OWNER, &target_body(RFNOP)));
    x.judge("to RFPRO", 2, &compose(Verb::Update, PSTAT, OWNER, &target_body(RFPRO)));
    x.judge("not in this state", 1500, &compose(Verb::Update, TARE, HAULIER, b"12000"));
    x.judge("no such row", 2, &compose(Verb::Delete, ACL2, OWNER, &[0, 9]));
    x.judge("to RFNOP", 2, &compose(Verb::Update, PSTAT, OWNER, &target_body(RFNOP)));
}

/// In service: permissions, seasons, roles, replies and the yard's links.
fn serve(x: &mut Terminal) {
    let tare = compose(Verb::Update, TARE, HAULIER, b"12000");
    x.judge("the second before the season", 999, &tare);
    x.judge("the season's first second", 1000, &tare);
    x.judge("the season's last second", 2000, &tare);
    x.judge("the second after the season", 2001, &tare);
    x.judge("no endpoint in clear", 1500, &compose(Verb::Update, TARE, 0, &[]));
    x.judge("a weight in clear", 1500, &compose(Verb::Retrieve, WEIGHT, 0, &[]));
    x.judge("no such verb here", 1500, &compose(Verb::Create, DOXM, OWNER, &[]));
    x.judge("the access rows, read", 1500, &compose(Verb::Retrieve, ACL2, OWNER, &[]));
    x.step("no room", Asked::JudgeShort, 1500, &compose(Verb::Retrieve, CRED, OWNER, &[]));
    let lamp = compose(Verb::Update, LAMP, FOREMAN, b"red");
    x.judge("no role yet", 1500, &lamp);
    x.judge("a role is asserted", 1500, &compose(Verb::Update, ROLES, FOREMAN, &asserted(9, 1600)));
    x.judge("with the role", 1600, &lamp);
    x.judge("after the role", 1601, &lamp);
    x.judge("a second role", 1600, &compose(Verb::Update, ROLES, FOREMAN, &asserted(10, 1600)));
    x.judge("no third role", 1600, &compose(Verb::Update, ROLES, FOREMAN, &asserted(11, 1700)));
    x.judge("the roles, read", 1600, &compose(Verb::Retrieve, ROLES, FOREMAN, &[]));
    x.judge("the yard's links", 1600, &compose(Verb::Retrieve, YARD, FOREMAN, &[]));
    x.step("the office text", Asked::AccessList, 0, &[]);
    x.step("the haulier, isolated", Asked::Isolated, 0, &[0, HAULIER as u8]);
    x.step("the owner, not isolated", Asked::Isolated, 0, &[0, HAULIER as u8, 0, OWNER as u8]);
    let row = ace(1, Subject::Uuid(uuid(2)), MAY_UPDATE, 0, &[TARE], Period::ALWAYS);
    x.step("a good list", Asked::TestList, 0, &row);
    x.step("a number twice", Asked::TestList, 0, &[&row[..], &row].concat());
    let old = OldRow { subject: None, permission: MAY_RETRIEVE, set: 1 << (63 - WEIGHT) }.bytes();
    x.step("an older list", Asked::ConvertList, 0, &old);
    x.step("half an older list", Asked::ConvertList, 0, &old[..24]);
}

/// Records wait, and are taken in turn.
fn wait(x: &mut Terminal) {
    x.step("a record waits", Asked::HandIn, 0, &compose(Verb::Update, TARE, HAULIER, b"9000"));
    x.step("no second one", Asked::HandIn, 0, &compose(Verb::Retrieve, TARE, HAULIER, &[]));
    x.step("one in clear", Asked::HandIn, 0, &compose(Verb::Retrieve, WEIGHT, 0, &[]));
    x.step("the owner's", Asked::HandIn, 0, &compose(Verb::Update, PSTAT, OWNER, &target_body(SRESET)));
    x.step("taken in clear", Asked::Take, 1500, &[]);
    x.step("taken of the owner", Asked::Take, 1500, &[]);
    x.step("taken in another state", Asked::Take, 1500, &[]);
    x.step("nothing to take", Asked::Take, 1500, &[]);
}

/// Rows are deleted, the memory is spoilt, and all is cleared.
fn take_down(x: &mut Terminal) {
    x.step("it waits no longer than its row", Asked::HandIn, 0, &compose(Verb::Retrieve, TARE, HAULIER, &[]));
    x.judge("a row is deleted", 3, &compose(Verb::Delete, ACL2, OWNER, &[0, 2]));
    x.judge("a subject is deleted", 3, &compose(Verb::Delete, CRED, OWNER, &[2; 16]));
    x.judge("all rows are deleted", 3, &compose(Verb::Delete, ACL2, OWNER, &[]));
    x.step("a bit is turned", Asked::Spoil, 0, &[0x40]);
    x.step("not sound", Asked::IsSound, 0, &[]);
    x.judge("not judged", 3, &compose(Verb::Retrieve, DOXM, 0, &[]));
    x.step("no text", Asked::AccessList, 0, &[]);
    x.step("the bit is turned back", Asked::Spoil, 0, &[0x40]);
    x.step("sound", Asked::IsSound, 0, &[]);
    x.judge("to RESET", 3, &compose(Verb::Update, PSTAT, OWNER, &target_body(RESET)));
    x.step("a new terminal again", Asked::IsSound, 0, &[]);
    x.judge("anybody's row", 3, &compose(Verb::Update, CRED, 0, &cred(HAULIER, 2, None)));
    x.step("sound with that row", Asked::IsSound, 0, &[]);
    x.step("the clear button", Asked::Clear, 0, &[]);
    x.step("a new one", Asked::IsSound, 0, &[]);
}

/// The table of the header, a line or more for each step.
pub fn table(steps: &[Step]) -> String {
    let mut lines = String::new();
    for (place, step) in (1..).zip(steps) {
        let mut bytes = vec![step.asked as u8, step.answer];
        bytes.extend(step.digest.to_be_bytes());
        bytes.extend(step.clock.to_be_bytes());
        bytes.push(step.bytes.len() as u8);
        bytes.extend(&step.bytes);
        lines += &format!("    /* {place}: {} */\n", step.what);
        for part in bytes.chunks(18) {
            let part: Vec<String> = part.iter().map(|byte| format!("0x{byte:02x},")).collect();
            lines += &format!("    {}\n", part.join(" "));
        }
    }
    lines
}
