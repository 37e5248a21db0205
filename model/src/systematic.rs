//! Cases by enumeration: every record of a group is judged on the group's
//! tables. The groups are in files, by the request that they are for.

mod defaults;
mod periods;
mod permission;
mod records;
mod roles;
mod rows;
mod soundness;
mod waiting;
mod yards;

use crate::case::Call;
use crate::defaults::Defaults;
use crate::directory::{self, ACL2, CRED, DIRECTORY, DISPLAY, DOXM, LINKS, PSTAT, ROLES, WEIGHT, YARD};
use crate::examples::{self, access, asserted, credential, owned, role, uuid, ANON, AUTH};
use crate::generate;
use crate::queue::{self, seat, Queue, QueueBytes, Seat, Slot, SLOTS, SLOT_RECORD, SLOT_SIZE, UNAUTHENTICATED};
use crate::random::Random;
use crate::record::{
    compose, device_owner_body, target_body, Header, Verb, MAY_ALL, MAY_CREATE, MAY_NOTIFY, MAY_RETRIEVE, MAY_UPDATE,
};
use crate::rules::receive;
use crate::spoil::{ACCESS_FAULTS, ASSERTED_FAULTS, CREDENTIAL_FAULTS, QUEUE_FAULTS, TABLE_FAULTS};
use crate::tables::{
    fresh_bytes, uuid_bytes, Access, Asserted, Connection, Credential, Period, Role, Row, State, Subject, TableBytes,
    Tables, Uuid, ACCESSES, ACCESS_COUNT, CREDENTIALS, CREDENTIAL_COUNT, MINUS, OWNED, PLUS, RESET, RFPRO, SIZE, STAR,
    STATE,
};

pub struct Group {
    pub name: &'static str,
    pub call: Call,
    pub tables: TableBytes,
    pub queue: QueueBytes,
    pub records: Vec<Vec<u8>>,
    /// The clock; None when it is drawn for each record.
    pub clock: Option<u32>,
    /// The length of the buffer; None when it is drawn for each record.
    pub capacity: Option<usize>,
    /// The default lists; None when they are drawn for the group.
    pub defaults: Option<Defaults>,
}

impl Group {
    /// Records to judge with nothing waiting.
    fn new(name: &'static str, tables: &Tables, records: Vec<Vec<u8>>) -> Group {
        Group::on(name, tables.bytes(), records)
    }

    /// The same on tables of any content.
    fn on(name: &'static str, tables: TableBytes, records: Vec<Vec<u8>>) -> Group {
        let queue = QueueBytes::empty();
        Group { name, call: Call::Judge, tables, queue, records, clock: None, capacity: None, defaults: None }
    }
}

// The senders of the tables below: 0 for nobody, and these rows.
const OWNER: u16 = 5;
const HAULIER: u16 = 0x0500;
const FOREMAN: u16 = 7;
const MISSING: u16 = 9;
const ROLE: Role = Role { authority: 0x0203, number: 0x0107 };

/// All groups; the seed decides only what the random bytes in them are.
pub fn groups(seed: u64) -> Vec<Group> {
    let mut random = Random::part(seed, 0);
    let mut groups = Vec::new();
    records::hand_worked(&mut groups);
    records::lengths(&mut groups);
    records::headers(&mut groups);
    records::body_lengths(&mut groups);
    records::targets(&mut groups);
    records::credential_bodies(&mut groups);
    records::access_bodies(&mut groups);
    records::owner_bodies(&mut groups);
    permission::access_rows(&mut groups);
    permission::owners(&mut groups);
    roles::roles(&mut groups);
    periods::periods(&mut groups);
    yards::yards(&mut groups);
    roles::asserted_bodies(&mut groups);
    roles::asserted_places(&mut groups);
    roles::asserted_fits(&mut groups);
    permission::near_misses(&mut groups);
    rows::places(&mut groups, &mut random);
    rows::replies(&mut groups, &mut random);
    permission::endpoints(&mut groups);
    rows::subjects(&mut groups, &mut random);
    defaults::default_lists(&mut groups, &mut random);
    soundness::soundness(&mut groups, &mut random);
    waiting::hand_ins(&mut groups);
    waiting::takes(&mut groups);
    waiting::examples_taken(&mut groups);
    waiting::rows_beside_queue(&mut groups, &mut random);
    waiting::queue_soundness(&mut groups, &mut random);
    groups
}

/// Fresh, then owned in each state with an owner and two partners, then with
/// the same partners and no owner.
fn stages() -> Vec<Tables> {
    let mut stages = vec![Tables::fresh()];
    for state in State::ALL {
        let mut tables = owned(state);
        tables.credentials.push(Credential { kind: 0, ..credential(HAULIER, uuid(0x22)) });
        tables.credentials.push(Credential { role: Some(ROLE), kind: 32, ..credential(FOREMAN, uuid(0x33)) });
        tables.row_owners[2] = Some(uuid(0x22));
        tables.accesses.push(access(1, AUTH, MAY_ALL, PLUS | STAR, &[]));
        tables.accesses.push(access(2, Subject::Role(ROLE), MAY_RETRIEVE | MAY_UPDATE, 0, &[DOXM, PSTAT, CRED, ACL2]));
        stages.push(tables);
    }
    stages.push(Tables { device_owner: None, ..stages[1].clone() });
    stages
}

/// In each state, with rows that grant everybody everything.
fn open_stages() -> Vec<Tables> {
    let every: Vec<u8> = DIRECTORY.iter().map(|resource| resource.number).collect();
    let mut stages = stages();
    for tables in &mut stages {
        tables.accesses = vec![access(3, ANON, MAY_ALL, 0, &every), access(4, AUTH, MAY_ALL, 0, &every)];
    }
    stages
}

fn flips(record: &[u8], from: usize) -> Vec<Vec<u8>> {
    let mut flipped = Vec::new();
    for place in from * 8..record.len() * 8 {
        let mut copy = record.to_vec();
        copy[place / 8] ^= 0x80 >> (place % 8);
        flipped.push(copy);
    }
    flipped
}
