//! Rows that are read and deleted: replies (U1), deletes by subject (U3), and the
//! places that a DELETE leaves to store in (U4).

use super::*;

/// Every row of small, nearly full and full tables deleted and replaced.
pub(super) fn places(groups: &mut Vec<Group>, random: &mut Random) {
    for (credentials, accesses) in [(24, 32), (23, 31), (24, 1), (2, 32), (3, 3), (1, 1), (0, 0)] {
        for state in State::ALL {
            let mut tables = Tables { state, device_owner: Some(uuid(0x11)), ..Tables::fresh() };
            for place in 0..credentials {
                let mut row = generate::credential(random, &[]);
                row.number = 0x0100 + place;
                row.subject = uuid(0x11);
                tables.credentials.push(row);
            }
            for place in 0..accesses {
                let mut row = generate::access(random, &[]);
                row.number = 0x01F0 + place;
                tables.accesses.push(row);
            }
            let sender = if credentials > 0 { 0x0100 + random.below(credentials.into()) as u16 } else { 0 };
            if credentials == 0 {
                // Somebody has to be able to write.
                tables.accesses.push(access(0x01F0 + accesses, ANON, MAY_ALL, 0, &[DOXM, PSTAT, CRED, ACL2]));
            }
            let mut records = Vec::new();
            for number in (0x0100..0x0100 + credentials + 2).chain([1, 0x01, 0x0001, 0x17, 0xFFFF]) {
                let mut row = generate::credential(random, &[]);
                row.number = number;
                records.push(compose(Verb::Update, CRED, sender, &row.bytes()));
                records.push(compose(Verb::Update, CRED, sender, &row.short_body()));
                records.push(compose(Verb::Delete, CRED, sender, &number.to_be_bytes()));
            }
            for number in (0x01F0..0x01F0 + accesses + 2).chain([1, 0xF0, 0xF001, 0xFFFF]) {
                let mut row = generate::access(random, &[]);
                row.number = number;
                records.push(compose(Verb::Update, ACL2, sender, &row.bytes()));
                records.push(compose(Verb::Update, ACL2, sender, &row.short_body()));
                records.push(compose(Verb::Delete, ACL2, sender, &number.to_be_bytes()));
            }
            for resource in [CRED, ACL2] {
                records.push(compose(Verb::Delete, resource, sender, &[]));
                records.push(compose(Verb::Delete, resource, sender, &[0, 0]));
            }
            for target in 0..=4 {
                records.push(compose(Verb::Update, PSTAT, sender, &target_body(target)));
            }
            groups.push(Group::new("places", &tables, records));
        }
    }
}

/// Every security resource read with buffers of many lengths.
pub(super) fn replies(groups: &mut Vec<Group>, random: &mut Random) {
    let mut add = |tables: &Tables, senders: &[u16], capacities: &[usize]| {
        let mut records = Vec::new();
        for &sender in senders {
            for resource in DOXM..=ROLES {
                records.push(compose(Verb::Retrieve, resource, sender, &[]));
                records.push(compose(Verb::Observe, resource, sender, &[]));
                records.push(compose(Verb::Retrieve, resource, sender, &[0]));
            }
            records.push(compose(Verb::Retrieve, WEIGHT, sender, &[1, 2]));
            records.push(compose(Verb::Update, PSTAT, sender, &target_body(RESET)));
            records.push(compose(Verb::Delete, CRED, sender, &[]));
        }
        for &capacity in capacities {
            groups.push(Group { capacity: Some(capacity), ..Group::new("replies", tables, records.clone()) });
        }
    };
    let lengths = |tables: &Tables| {
        let credentials = 16 + tables.credentials.len() * Credential::BODY_SIZE;
        let accesses = 16 + tables.accesses.len() * Access::BODY_SIZE;
        [17, 33, credentials, accesses].into_iter().flat_map(|fits| [fits - 1, fits, fits + 1])
    };
    for tables in stages() {
        let sender = if tables.owned() { OWNER } else { 0 };
        let capacities: Vec<usize> = lengths(&tables).chain([0, 1, 15, 100, 1200]).collect();
        add(&tables, &[sender, FOREMAN], &capacities);
    }
    // Each count of rows, each with its own exact capacity.
    for rows in 0..=32 {
        let mut tables = Tables::fresh();
        for number in 0..rows {
            tables.accesses.push(Access { number: 0x0300 - number, ..generate::access(random, &[]) });
            if tables.credentials.len() < Credential::CAPACITY {
                tables.credentials.push(Credential { number: 0x0200 - number, ..generate::credential(random, &[]) });
            }
        }
        for owner in &mut tables.row_owners {
            *owner = Some(generate::uuid(random));
        }
        let capacities: Vec<usize> = lengths(&tables).skip(6).chain([0, 1167, 1168]).collect();
        add(&tables, &[0], &capacities);
    }
}

/// Deletes by subject, with the subject's rows in every pattern.
pub(super) fn subjects(groups: &mut Vec<Group>, random: &mut Random) {
    let hauliers = |pattern: &[bool]| {
        let rows = (0x0120..).zip(pattern).map(|(number, &theirs)| {
            let subject = if theirs { uuid(0x22) } else { uuid(0x23) };
            Credential { role: Some(ROLE), ..credential(number, subject) }
        });
        rows.collect::<Vec<Credential>>()
    };
    let bodies = |sender| {
        let mut records = Vec::new();
        for byte in [0x22, 0x23, 0x11, 0x44, 0x00] {
            records.push(compose(Verb::Delete, CRED, sender, &[byte; 16]));
        }
        records
    };
    // Unowned, where nobody has to stay; then with an owner first or last.
    for pattern in 0..64 {
        let pattern: Vec<bool> = (0..6).map(|place| pattern >> place & 1 == 1).collect();
        let credentials = hauliers(&pattern);
        groups.push(Group::new("subjects", &Tables { credentials, ..Tables::fresh() }, bodies(0)));
        let state = State::ALL[random.below(4)];
        let mut tables = owned(state);
        let place = if random.chance(50) { 0 } else { tables.credentials.len() };
        let theirs = hauliers(&pattern[..4]);
        tables.credentials.splice(place..place, theirs);
        tables.accesses.push(access(1, Subject::Uuid(uuid(0x22)), MAY_ALL, STAR, &[CRED]));
        groups.push(Group::new("subjects", &tables, bodies(OWNER)));
    }
    for turn in 0..60 {
        let pattern: Vec<bool> = (0..Credential::CAPACITY)
            .map(|place| match turn {
                0 => true,
                1 => place % 2 == 0,
                2 => place % 2 == 1,
                3..=26 => place == turn - 3,
                27 => place < 12,
                28 => place >= 12,
                _ => random.chance(turn),
            })
            .collect();
        let credentials = hauliers(&pattern);
        groups.push(Group::new("subjects", &Tables { credentials, ..Tables::fresh() }, bodies(0)));
    }
    // A bit off, other lengths, other resources, other senders.
    for tables in stages() {
        let sender = if tables.owned() { OWNER } else { 0 };
        let mut records = flips(&compose(Verb::Delete, CRED, sender, &[0x22; 16]), 4);
        for bit in 0..128 {
            records.push(compose(Verb::Delete, CRED, sender, &(1u128 << bit).to_be_bytes()));
        }
        for resource in DOXM..=ROLES {
            for sender in [0, OWNER, HAULIER, FOREMAN, MISSING] {
                for length in [15, 16, 17] {
                    records.push(compose(Verb::Delete, resource, sender, &vec![0x22; length]));
                    records.push(compose(Verb::Delete, resource, sender, &vec![0x33; length]));
                    records.push(compose(Verb::Delete, resource, sender, &vec![0; length]));
                }
            }
        }
        groups.push(Group::new("subjects", &tables, records));
    }
}
