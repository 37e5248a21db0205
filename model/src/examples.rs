//! Cases with expectations worked out by hand.

use crate::answers::{
    BAD_TARGET, MALFORMED, MISMATCH, MISSING, NOT_OFFERED, NOT_PERMITTED, NO_CREDENTIAL, NO_ENDPOINT, PERMITTED,
    ROLES_FULL, WRONG_STATE,
};
use crate::case::Case;
use crate::directory::{
    set_bit, ACL2, CALIB, CRED, DISPLAY, DOXM, LAMP, PSTAT, ROLES, TARE, TICKET, WEIGHT, YARD, ZERO,
};
use crate::hex;
use crate::record::{
    compose, device_owner_body, target_body, Verb, MAY_ALL, MAY_CREATE, MAY_DELETE, MAY_NOTIFY, MAY_RETRIEVE,
    MAY_UPDATE,
};
use crate::rules::REPLY_MAX;
use crate::tables::{fresh_bytes, CREDENTIAL_COUNT, MINUS, PLUS, RFPRO, STAR};
use crate::tables::{
    Access, Asserted, Connection, Credential, Period, Role, Row, State, Subject, TableBytes, Tables, Uuid, Wildcards,
};

/// A record, the tables before it, and what is to come of it.
pub struct Example {
    pub name: &'static str,
    pub tables: TableBytes,
    pub clock: u32,
    pub record: Vec<u8>,
    pub capacity: usize,
    pub answer: u8,
    pub permission: u8,
    /// The links that the yard answers.
    pub links: u64,
}

impl Example {
    pub fn case(&self) -> Case {
        Case { clock: self.clock, capacity: self.capacity, ..Case::new(&self.tables, &self.record) }
    }
}

/// The UUID of sixteen equal bytes.
pub fn uuid(byte: u8) -> Uuid {
    Uuid::new(u128::from_be_bytes([byte; 16])).expect("not nil")
}

pub fn credential(number: u16, subject: Uuid) -> Credential {
    Credential { number, subject, role: None, kind: 4, asserted: Vec::new() }
}

pub fn asserted(authority: u16, number: u16, last: u32) -> Asserted {
    Asserted { role: Role { authority, number }, last }
}

/// A row that holds for every second.
pub fn access(number: u16, subject: Subject, permission: u8, wildcards: u8, resources: &[u8]) -> Access {
    Access {
        number,
        subject,
        permission,
        wildcards: Wildcards::from_number(wildcards),
        set: resources.iter().fold(0, |set, &number| set | set_bit(number)),
        period: Period::ALWAYS,
    }
}

pub fn role(authority: u16, number: u16) -> Subject {
    Subject::Role(Role { authority, number })
}

pub const ANON: Subject = Subject::Connection(Connection::AnonClear);
pub const AUTH: Subject = Subject::Connection(Connection::AuthCrypt);

/// Owned by sixteen `11`, whose credential is row 5.
pub fn owned(state: State) -> Tables {
    Tables { state, device_owner: Some(uuid(0x11)), credentials: vec![credential(5, uuid(0x11))], ..Tables::fresh() }
}

fn with_access(state: State, accesses: Vec<Access>) -> Tables {
    Tables { accesses, ..owned(state) }
}

/// With a buffer that fits any reply, and no links.
fn example(name: &'static str, tables: &Tables, clock: u32, record: Vec<u8>, answer: u8, permission: u8) -> Example {
    Example { name, tables: tables.bytes(), clock, record, capacity: REPLY_MAX, answer, permission, links: 0 }
}

/// One for each refusal, in the order of their numbers.
pub fn refusals() -> Vec<Example> {
    let fresh = fresh_bytes();
    let mut claims_25 = fresh;
    claims_25[CREDENTIAL_COUNT] = 25;
    let full =
        Tables { credentials: (1..=24).map(|number| credential(number, uuid(0x22))).collect(), ..Tables::fresh() };
    let eleven = "11".repeat(16);
    let mut shown = owned(State::Rfnop);
    shown.credentials[0].asserted = vec![asserted(0, 7, u32::MAX), asserted(2, 7, 0)];
    let rows: [(TableBytes, String); 17] = [
        (claims_25, "22 00 00 00".into()),
        (fresh, "40 80 00".into()),
        (fresh, "A2 00 00 00".into()),
        (fresh, "22 01 00 00".into()),
        (fresh, "22 00 00 05".into()),
        (fresh, "21 40 00 00".into()),
        (fresh, "32 00 00 09".into()),
        (fresh, "22 00 00 00".into()),
        (fresh, "00 C0 00 00".into()),
        (fresh, "40 40 00 00 A0".into()),
        (owned(State::Rfpro).bytes(), format!("50 00 00 05 80 {eleven}")),
        (fresh, "40 40 00 00 60".into()),
        (fresh, "60 80 00 00 00 05".into()),
        (full.bytes(), format!("40 80 00 00 00 19 {eleven} 00 00 04")),
        (full.bytes(), "20 80 00 00".into()),
        (fresh, "22 40 00 00".into()),
        (shown.bytes(), "51 00 00 05 0003 0007 00000009".into()),
    ];
    (1..=16)
        .chain([22])
        .zip(rows)
        .map(|(answer, (tables, record))| Example {
            name: "refusal",
            tables,
            clock: 0,
            record: hex::literal(&record),
            // One short of the reply that example 15 would get.
            capacity: 16 + 24 * 23 - 1,
            answer,
            permission: 0,
            links: 0,
        })
        .collect()
}

/// The readings that are wrong, each with the right answer.
pub fn wrong_readings() -> Vec<Example> {
    let mut examples = Vec::new();
    let mut add = |name, tables: &Tables, record, answer, permission| {
        examples.push(example(name, tables, 0, record, answer, permission));
    };

    let two = with_access(
        State::Rfnop,
        vec![access(1, ANON, MAY_CREATE, 0, &[WEIGHT]), access(2, ANON, MAY_UPDATE, 0, &[WEIGHT])],
    );
    add("rows unite", &two, compose(Verb::Update, WEIGHT, 0, &[]), PERMITTED, MAY_CREATE | MAY_UPDATE);
    add("rows unite", &two, compose(Verb::Create, WEIGHT, 0, &[]), PERMITTED, MAY_CREATE | MAY_UPDATE);
    add("rows unite", &two, compose(Verb::Retrieve, WEIGHT, 0, &[]), NOT_PERMITTED, 0);

    for wildcards in 1..8 {
        let mut wild = with_access(
            State::Rfnop,
            vec![access(1, AUTH, MAY_ALL, wildcards, &[]), access(2, ANON, MAY_ALL, wildcards, &[])],
        );
        wild.credentials.push(credential(6, uuid(0x66)));
        for resource in DOXM..=ACL2 {
            for sender in [0, 6] {
                add("no wildcard on security", &wild, compose(Verb::Retrieve, resource, sender, &[]), NOT_PERMITTED, 0);
            }
        }
        add("no wildcard on the roles", &wild, compose(Verb::Retrieve, ROLES, 0, &[]), NOT_PERMITTED, 0);
        add(
            "no wildcard on the roles",
            &wild,
            compose(Verb::Retrieve, ROLES, 6, &[]),
            PERMITTED,
            MAY_RETRIEVE | MAY_UPDATE,
        );
        add("no wildcard on the roles", &wild, compose(Verb::Delete, ROLES, 6, &[]), NOT_PERMITTED, 0);
    }

    for state in State::ALL {
        let ownerless = owned(state);
        for resource in DOXM..=ROLES {
            add("nil fits nobody", &ownerless, compose(Verb::Retrieve, resource, 0, &[]), NOT_PERMITTED, 0);
        }
    }

    let auth = with_access(State::Rfnop, vec![access(1, AUTH, MAY_RETRIEVE, 0, &[WEIGHT])]);
    add("auth-crypt is not anon-clear", &auth, compose(Verb::Retrieve, WEIGHT, 0, &[]), NOT_PERMITTED, 0);
    add("auth-crypt is not anon-clear", &auth, compose(Verb::Retrieve, WEIGHT, 5, &[]), PERMITTED, MAY_RETRIEVE);
    let anon = with_access(State::Rfnop, vec![access(1, ANON, MAY_RETRIEVE, 0, &[WEIGHT])]);
    add("anon-clear is not auth-crypt", &anon, compose(Verb::Retrieve, WEIGHT, 0, &[]), PERMITTED, MAY_RETRIEVE);
    add("anon-clear is not auth-crypt", &anon, compose(Verb::Retrieve, WEIGHT, 5, &[]), NOT_PERMITTED, 0);

    let taken = owned(State::Rfpro);
    add("permission before body", &taken, compose(Verb::Update, PSTAT, 0, &[0xA0]), NOT_PERMITTED, 0);
    add("permission before body", &taken, compose(Verb::Update, PSTAT, 5, &[0xA0]), MALFORMED, 0);

    for state in State::ALL {
        let target = target_body(state as u8);
        add("no move to the same state", &owned(state), compose(Verb::Update, PSTAT, 5, &target), BAD_TARGET, 0);
    }
    examples
}

/// Cases that the paper leaves open and a decision settles.
pub fn decided() -> Vec<Example> {
    let mut examples = Vec::new();
    let mut add = |name, tables: &Tables, record, answer, permission| {
        examples.push(example(name, tables, 0, record, answer, permission));
    };
    let fresh = Tables::fresh();
    let taken = owned(State::Rfpro);

    add(
        "SRESET keeps an owner",
        &owned(State::Sreset),
        compose(Verb::Update, DOXM, 5, &device_owner_body(None)),
        11,
        PERMITTED,
    );
    let other = device_owner_body(Some(uuid(0x77)));
    add(
        "SRESET takes another owner",
        &owned(State::Sreset),
        compose(Verb::Update, DOXM, 5, &other),
        PERMITTED,
        MAY_ALL,
    );
    add("RFPRO needs an owner", &fresh, compose(Verb::Update, PSTAT, 0, &target_body(RFPRO)), BAD_TARGET, 0);
    add("no body to a read", &fresh, compose(Verb::Retrieve, DOXM, 0, &[0]), MALFORMED, 0);
    add("no body to a read", &fresh, compose(Verb::Observe, ACL2, 0, &[0; 16]), MALFORMED, 0);
    for state in [State::Rfotm, State::Rfpro, State::Sreset] {
        let open = with_access(state, vec![access(1, ANON, MAY_ALL, STAR, &[])]);
        let closed = with_access(state, vec![]);
        for body in [&[][..], &[1, 2, 3]] {
            add("served in RFNOP only", &open, compose(Verb::Update, WEIGHT, 0, body), WRONG_STATE, 0);
            add("served in RFNOP only", &closed, compose(Verb::Update, WEIGHT, 0, body), NOT_PERMITTED, 0);
        }
    }
    let broad = with_access(
        State::Rfnop,
        vec![access(1, ANON, MAY_ALL, STAR, &[]), access(2, AUTH, MAY_ALL, PLUS | MINUS | STAR, &[])],
    );
    add("/tare in clear", &broad, compose(Verb::Update, TARE, 0, &[1]), NO_ENDPOINT, 0);
    add("/tare encrypted", &broad, compose(Verb::Update, TARE, 5, &[1]), PERMITTED, MAY_ALL);
    add("/display in clear", &broad, compose(Verb::Update, DISPLAY, 0, &[1]), PERMITTED, MAY_ALL);
    add("/display encrypted", &broad, compose(Verb::Update, DISPLAY, 5, &[1]), NO_ENDPOINT, 0);
    add("endpoint before permission", &taken, compose(Verb::Retrieve, TARE, 0, &[]), NO_ENDPOINT, 0);
    add("endpoint after credential row", &taken, compose(Verb::Retrieve, DISPLAY, 9, &[]), NO_CREDENTIAL, 0);
    add("unknown partner", &fresh, compose(Verb::Retrieve, DOXM, 9, &[]), NO_CREDENTIAL, 0);
    add("partner 0", &fresh, hex::literal("30 00 00 00"), MISMATCH, 0);
    add("row 0", &fresh, compose(Verb::Delete, CRED, 0, &[0, 0]), MALFORMED, 0);
    add("nil subject", &fresh, compose(Verb::Delete, CRED, 0, &[0; 16]), MALFORMED, 0);
    add("subject without a row", &fresh, compose(Verb::Delete, CRED, 0, &[0x11; 16]), MISSING, 0);
    add("subject with a row", &taken, compose(Verb::Delete, CRED, 5, &[0x11; 16]), PERMITTED, MAY_ALL);
    add("subject of access rows", &fresh, compose(Verb::Delete, ACL2, 0, &[0x11; 16]), MALFORMED, 0);
    add("delete all of none", &fresh, compose(Verb::Delete, CRED, 0, &[]), PERMITTED, MAY_ALL);
    add("delete all of none", &fresh, compose(Verb::Delete, ACL2, 0, &[]), PERMITTED, MAY_ALL);

    // Two hauliers who both call their foremen role 7.
    let mut foremen = with_access(
        State::Rfnop,
        vec![access(1, role(2, 7), MAY_RETRIEVE, 0, &[WEIGHT]), access(2, role(0, 9), MAY_UPDATE, 0, &[WEIGHT])],
    );
    for (number, authority, role) in [(6, 2, 7), (7, 3, 7), (8, 0, 7), (9, 0, 9), (10, 7, 2)] {
        let role = Some(Role { authority, number: role });
        foremen.credentials.push(Credential { role, ..credential(number, uuid(0x60)) });
    }
    add("role 7 of authority 2", &foremen, compose(Verb::Retrieve, WEIGHT, 6, &[]), PERMITTED, MAY_RETRIEVE);
    add("role 7 of authority 3", &foremen, compose(Verb::Retrieve, WEIGHT, 7, &[]), NOT_PERMITTED, 0);
    add("role 7 of the works", &foremen, compose(Verb::Retrieve, WEIGHT, 8, &[]), NOT_PERMITTED, 0);
    add("role 2 of authority 7", &foremen, compose(Verb::Retrieve, WEIGHT, 10, &[]), NOT_PERMITTED, 0);
    add("no role at all", &foremen, compose(Verb::Retrieve, WEIGHT, 5, &[]), NOT_PERMITTED, 0);
    add("role 9 of the works", &foremen, compose(Verb::Update, WEIGHT, 9, &[]), PERMITTED, MAY_UPDATE);
    let subject = "22".repeat(16);
    let store = |body: &str| hex::literal(&format!("40800000 0006 {subject} {body}"));
    add("a body without an authority", &fresh, store("0007 04"), PERMITTED, MAY_ALL);
    add("a body with authority 0", &fresh, store("0007 0000 04"), PERMITTED, MAY_ALL);
    add("a body with an authority", &fresh, store("0007 0003 04"), PERMITTED, MAY_ALL);
    add("no role and no authority", &fresh, store("0000 0000 04"), PERMITTED, MAY_ALL);
    add("an authority beside role 0", &fresh, store("0000 0003 04"), MALFORMED, 0);
    add("half an authority", &fresh, store("0007 00 04"), MALFORMED, 0);
    let store = |subject: &str| hex::literal(&format!("40c00000 0006 4400 0080000000000000 {subject:0>32}"));
    add("a role row of an authority", &fresh, store("00030007"), PERMITTED, MAY_ALL);
    add("a role row of the works", &fresh, store("0007"), PERMITTED, MAY_ALL);
    add("a role row of role 0", &fresh, store("00030000"), MALFORMED, 0);
    add("a bit before the authority", &fresh, store("100030007"), MALFORMED, 0);

    let credentials = (1..=24).map(|number| credential(number, uuid(0x22))).collect();
    let accesses = (1..=32).map(|number| access(number, ANON, MAY_CREATE, STAR, &[])).collect();
    let full = Tables { credentials, accesses, ..fresh };
    add(
        "a held number in a full table",
        &full,
        compose(Verb::Update, CRED, 0, &credential(24, uuid(0x33)).bytes()),
        0,
        31,
    );
    add(
        "a held number in a full table",
        &full,
        compose(Verb::Update, ACL2, 0, &access(1, AUTH, MAY_CREATE | MAY_DELETE, MINUS, &[ACL2]).bytes()),
        0,
        31,
    );
    add(
        "a new number in a full table",
        &full,
        compose(Verb::Update, ACL2, 0, &access(33, AUTH, MAY_CREATE | MAY_DELETE, MINUS, &[ACL2]).bytes()),
        14,
        PERMITTED,
    );
    examples.extend(seasons());
    examples.extend(yards());
    examples.extend(roles_shown());
    examples
}

/// Foremen who show a role on the day.
fn roles_shown() -> Vec<Example> {
    let mut examples = Vec::new();
    let mut add = |name, tables: &Tables, clock, record, answer, permission| {
        examples.push(example(name, tables, clock, record, answer, permission));
    };
    const MAX: u32 = u32::MAX;
    let read = |sender| compose(Verb::Retrieve, WEIGHT, sender, &[]);
    let show = |sender, body: &str| compose(Verb::Update, ROLES, sender, &hex::literal(body));

    let with_foreman = |state, shown: &[Asserted]| {
        let mut tables = with_access(
            state,
            vec![access(1, role(2, 7), MAY_RETRIEVE, 0, &[WEIGHT]), access(2, role(2, 8), MAY_UPDATE, 0, &[WEIGHT])],
        );
        tables.credentials.push(Credential { asserted: shown.to_vec(), ..credential(6, uuid(0x66)) });
        tables
    };
    let none = with_foreman(State::Rfnop, &[]);
    add("no role is shown", &none, 0, read(6), NOT_PERMITTED, 0);
    let one = with_foreman(State::Rfnop, &[asserted(2, 7, 1000)]);
    for (clock, answer, permission) in [(0, 0, 2), (999, 0, 2), (1000, 0, 2), (1001, 8, 0), (MAX, 8, 0)] {
        add("a role up to its last second", &one, clock, read(6), answer, permission);
    }
    add("another's role", &one, 0, read(5), NOT_PERMITTED, 0);
    let two = with_foreman(State::Rfnop, &[asserted(2, 8, 1000), asserted(2, 7, 2000)]);
    for (clock, answer, permission) in [(1000, 0, 6), (1001, 0, 2), (2000, 0, 2), (2001, 8, 0)] {
        add("two roles unite", &two, clock, read(6), answer, permission);
    }
    let near = with_foreman(State::Rfnop, &[asserted(0, 7, MAX), asserted(7, 2, MAX)]);
    add("a role of another authority", &near, 0, read(6), NOT_PERMITTED, 0);

    add("a partner shows a role", &none, 0, show(6, "0002 0007 000003e8"), PERMITTED, MAY_RETRIEVE | MAY_UPDATE);
    add("the owner shows a role", &none, 0, show(5, "0002 0007 000003e8"), PERMITTED, MAY_ALL);
    add("nobody shows a role", &none, 0, show(0, "0002 0007 000003e8"), NOT_PERMITTED, 0);
    add("an expired role is shown", &none, 1001, show(6, "0002 0007 000003e8"), PERMITTED, MAY_RETRIEVE | MAY_UPDATE);
    for state in [State::Rfotm, State::Rfpro, State::Sreset] {
        add(
            "roles are shown in RFNOP only",
            &with_foreman(state, &[]),
            0,
            show(6, "0002 0007 000003e8"),
            WRONG_STATE,
            0,
        );
    }
    let unowned = Tables { device_owner: None, ..with_foreman(State::Rfotm, &[]) };
    add("nobody shows a role to nobody's terminal", &unowned, 0, show(0, "0002 0007 000003e8"), WRONG_STATE, 0);
    add("nor does a partner", &unowned, 0, show(6, "0002 0007 000003e8"), WRONG_STATE, 0);
    let open = Tables { accesses: vec![access(1, ANON, MAY_RETRIEVE | MAY_UPDATE, 0, &[ROLES])], ..none.clone() };
    add("a row lets nobody show a role", &open, 0, show(0, "0002 0007 000003e8"), WRONG_STATE, 0);
    add(
        "a row lets nobody read roles",
        &open,
        0,
        compose(Verb::Retrieve, ROLES, 0, &[]),
        PERMITTED,
        MAY_RETRIEVE | MAY_UPDATE,
    );
    add(
        "another source of permission",
        &open,
        0,
        compose(Verb::Retrieve, ROLES, 6, &[]),
        PERMITTED,
        MAY_RETRIEVE | MAY_UPDATE,
    );
    let more =
        Tables { accesses: vec![access(1, AUTH, MAY_CREATE | MAY_DELETE | MAY_NOTIFY, 0, &[ROLES])], ..none.clone() };
    add("another source of permission", &more, 0, compose(Verb::Retrieve, ROLES, 6, &[]), PERMITTED, MAY_ALL);
    add("CREATE is not offered", &more, 0, compose(Verb::Create, ROLES, 6, &[]), NOT_OFFERED, 0);
    add("DELETE is not offered", &more, 0, compose(Verb::Delete, ROLES, 6, &[]), NOT_OFFERED, 0);
    add("DELETE is not permitted", &none, 0, compose(Verb::Delete, ROLES, 6, &[]), NOT_PERMITTED, 0);
    add("DELETE by the owner", &none, 0, compose(Verb::Delete, ROLES, 5, &[]), NOT_OFFERED, 0);
    for body in ["", "0002 0007 0003e8", "0002 0007 000003e800", "0002 0000 000003e8", &"11".repeat(16)] {
        add("no role in the body", &none, 0, show(6, body), MALFORMED, 0);
        add("no role in the body, before the state", &with_foreman(State::Rfpro, &[]), 0, show(6, body), MALFORMED, 0);
    }

    let full = with_foreman(State::Rfnop, &[asserted(2, 7, 1000), asserted(2, 8, 2000)]);
    add("a third role", &full, 1000, show(6, "0003 0007 ffffffff"), ROLES_FULL, 0);
    add(
        "a third role, once one has expired",
        &full,
        1001,
        show(6, "0003 0007 ffffffff"),
        PERMITTED,
        MAY_RETRIEVE | MAY_UPDATE,
    );
    add(
        "a third role, once both are over",
        &full,
        2001,
        show(6, "0003 0007 ffffffff"),
        PERMITTED,
        MAY_RETRIEVE | MAY_UPDATE,
    );
    add("an equal role", &full, 1000, show(6, "0002 0008 00000000"), PERMITTED, MAY_RETRIEVE | MAY_UPDATE);
    add("another's places", &full, 1000, show(5, "0003 0007 ffffffff"), PERMITTED, MAY_ALL);

    for state in State::ALL {
        let read = with_foreman(state, &[asserted(2, 7, 9)]);
        add(
            "roles are read in every state",
            &read,
            0,
            compose(Verb::Retrieve, ROLES, 6, &[]),
            PERMITTED,
            MAY_RETRIEVE | MAY_UPDATE,
        );
        add(
            "roles are observed in every state",
            &read,
            0,
            compose(Verb::Observe, ROLES, 6, &[]),
            PERMITTED,
            MAY_RETRIEVE | MAY_UPDATE,
        );
        add("no body to a read", &read, 0, compose(Verb::Retrieve, ROLES, 6, &[0]), MALFORMED, 0);
        add("nobody reads roles", &read, 0, compose(Verb::Retrieve, ROLES, 0, &[]), NOT_PERMITTED, 0);
    }
    add("anybody reads nobody's terminal", &unowned, 0, compose(Verb::Retrieve, ROLES, 0, &[]), PERMITTED, MAY_ALL);
    examples
}

/// Rows with a period, at clocks around its ends.
fn seasons() -> Vec<Example> {
    let mut examples = Vec::new();
    let mut add = |name, tables: &Tables, clock, record, answer, permission| {
        examples.push(example(name, tables, clock, record, answer, permission));
    };
    const MAX: u32 = u32::MAX;
    let read = || compose(Verb::Retrieve, WEIGHT, 0, &[]);
    let during = |first, last, row: Access| Access { period: Period { first, last }, ..row };
    let harvest = with_access(
        State::Rfnop,
        vec![
            during(1000, 2000, access(1, ANON, MAY_RETRIEVE, 0, &[WEIGHT])),
            during(2000, MAX, access(2, ANON, MAY_RETRIEVE | MAY_UPDATE, 0, &[WEIGHT])),
        ],
    );
    add("before the first second", &harvest, 999, read(), NOT_PERMITTED, 0);
    add("the first second", &harvest, 1000, read(), PERMITTED, MAY_RETRIEVE);
    add("the last second", &harvest, 2000, read(), PERMITTED, MAY_RETRIEVE | MAY_UPDATE);
    add("the last second of all", &harvest, MAX, read(), PERMITTED, MAY_RETRIEVE | MAY_UPDATE);
    let single = with_access(
        State::Rfnop,
        vec![
            during(7, 7, access(1, ANON, MAY_RETRIEVE, 0, &[WEIGHT])),
            during(0, 0, access(2, ANON, MAY_RETRIEVE, STAR, &[])),
        ],
    );
    for (clock, answer, permission) in [(0, 0, 2), (1, 8, 0), (6, 8, 0), (7, 0, 2), (8, 8, 0), (MAX, 8, 0)] {
        add("single seconds", &single, clock, read(), answer, permission);
    }
    let always = with_access(State::Rfnop, vec![access(1, ANON, MAY_RETRIEVE, 0, &[WEIGHT])]);
    for clock in [0, 1 << 31, MAX] {
        add("every second", &always, clock, read(), PERMITTED, MAY_RETRIEVE);
    }
    let fresh = Tables::fresh();
    let store =
        |period: &str| hex::literal(&format!("40c00000 0006 8400 0080000000000000 {} {period}", "00".repeat(16)));
    add("first later than last", &fresh, 0, store("00000008 00000007"), MALFORMED, 0);
    add("half a period", &fresh, 0, store("00000007"), MALFORMED, 0);
    add("a period of one second", &fresh, 9, store("00000007 00000007"), PERMITTED, MAY_ALL);
    add("a body without a period", &fresh, MAX, store(""), PERMITTED, MAY_ALL);
    add("an owner has no period", &owned(State::Rfpro), MAX, compose(Verb::Retrieve, ACL2, 5, &[]), PERMITTED, MAY_ALL);
    examples
}

/// Polls of the whole yard.
fn yards() -> Vec<Example> {
    let mut examples = Vec::new();
    let mut add = |name, tables: &Tables, clock, record, answer, permission, links| {
        examples.push(Example { capacity: 0, links, ..example(name, tables, clock, record, answer, permission) });
    };
    let read = |sender| compose(Verb::Retrieve, YARD, sender, &[]);
    let write = |sender| compose(Verb::Update, YARD, sender, &[1, 2]);

    let named = with_access(
        State::Rfnop,
        vec![
            access(1, AUTH, MAY_RETRIEVE | MAY_UPDATE, 0, &[YARD]),
            access(2, AUTH, MAY_RETRIEVE, 0, &[WEIGHT, TARE, DISPLAY]),
            access(3, AUTH, MAY_UPDATE, 0, &[TARE, CALIB]),
        ],
    );
    add("links to read", &named, 0, read(5), PERMITTED, MAY_RETRIEVE | MAY_UPDATE, 0x00C0_0000_0000_0000);
    add("links to write", &named, 0, write(5), PERMITTED, MAY_RETRIEVE | MAY_UPDATE, 0x0044_0000_0000_0000);
    add(
        "no set for an OBSERVE",
        &named,
        0,
        compose(Verb::Observe, YARD, 5, &[]),
        PERMITTED,
        MAY_RETRIEVE | MAY_UPDATE,
        0,
    );
    add("the yard in clear", &named, 0, read(0), NO_ENDPOINT, 0, 0);
    add("a link alone", &named, 0, compose(Verb::Retrieve, WEIGHT, 5, &[]), PERMITTED, MAY_RETRIEVE, 0);
    let all = with_access(State::Rfnop, vec![access(1, AUTH, MAY_ALL, STAR, &[])]);
    add("all but /display by *", &all, 0, read(5), PERMITTED, MAY_ALL, 0x00FC_0000_0000_0000);
    add("all but /display by *", &all, 0, write(5), PERMITTED, MAY_ALL, 0x00FC_0000_0000_0000);
    for verb in [Verb::Create, Verb::Delete, Verb::Observe] {
        add("no set for another verb", &all, 0, compose(verb, YARD, 5, &[]), PERMITTED, MAY_ALL, 0);
    }
    let plus = with_access(State::Rfnop, vec![access(1, AUTH, MAY_RETRIEVE, PLUS, &[])]);
    add("those to be discovered by +", &plus, 0, read(5), PERMITTED, MAY_RETRIEVE, 0x00F8_0000_0000_0000);
    let minus = with_access(State::Rfnop, vec![access(1, AUTH, MAY_RETRIEVE, MINUS, &[])]);
    add("no yard by -", &minus, 0, read(5), NOT_PERMITTED, 0, 0);
    let minus = with_access(State::Rfnop, vec![access(1, AUTH, MAY_RETRIEVE, MINUS, &[YARD])]);
    add("links by -", &minus, 0, read(5), PERMITTED, MAY_RETRIEVE, 0x0088_0000_0000_0000);
    let alone = with_access(
        State::Rfnop,
        vec![access(1, AUTH, MAY_RETRIEVE, 0, &[YARD]), access(2, ANON, MAY_ALL, PLUS | MINUS | STAR, &[])],
    );
    add("no link at all", &alone, 0, read(5), PERMITTED, MAY_RETRIEVE, 0);
    let links = with_access(
        State::Rfnop,
        vec![access(1, AUTH, MAY_ALL, 0, &[WEIGHT, TARE, ZERO, TICKET, LAMP, CALIB, DISPLAY])],
    );
    add("links without the yard", &links, 0, read(5), NOT_PERMITTED, 0, 0);
    let elsewhere = with_access(State::Rfpro, vec![access(1, AUTH, MAY_ALL, STAR, &[])]);
    add("the yard in RFNOP only", &elsewhere, 0, read(5), WRONG_STATE, 0, 0);
    let season = Period { first: 10, last: 20 };
    let season = with_access(
        State::Rfnop,
        vec![access(1, AUTH, MAY_RETRIEVE, 0, &[YARD, LAMP]), Access { period: season, ..access(2, AUTH, 2, 0, &[8]) }],
    );
    for (clock, links) in [(9, 0x0008), (10, 0x0088), (20, 0x0088), (21, 0x0008)] {
        add("a link for a season", &season, clock, read(5), PERMITTED, MAY_RETRIEVE, links << 48);
    }
    examples
}

/// The run of the paper, and its text.
pub fn worked_run() -> Vec<u8> {
    let eleven = "11".repeat(16);
    hex::literal(&format!(
        "00000000 0019 40800000 0005 {eleven} 0000 04
         00000000 0015 40000000 80 {eleven}
         00000000 0005 40400000 40
         00000000 0005 50400005 40
         00000000 0005 50400005 40"
    ))
}

pub const WORKED_TEXT: &str = "\
n answer perm state
1 0 31 1
2 0 31 1
3 8 0 1
4 0 31 2
5 12 0 2
";

/// All of them.
pub fn all() -> Vec<Example> {
    let mut examples = refusals();
    examples.extend(wrong_readings());
    examples.extend(decided());
    examples
}

#[cfg(test)]
#[path = "tests/examples.rs"]
mod tests;
