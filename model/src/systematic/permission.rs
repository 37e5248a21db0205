//! Permission: an access row against every verb, resource and sender, owners, near
//! misses, and endpoints (U2).

use super::*;

/// One access row of each kind against every verb, resource and sender.
pub(super) fn access_rows(groups: &mut Vec<Group>) {
    let subjects = [
        Subject::Uuid(uuid(0x33)),
        Subject::Uuid(uuid(0x11)),
        Subject::Uuid(uuid(0x55)),
        Subject::Role(ROLE),
        role(ROLE.authority, 0x0007),
        role(0, ROLE.number),
        role(ROLE.number, ROLE.authority),
        ANON,
        AUTH,
    ];
    let wildcards = (0..8).map(|wildcards| (wildcards, None));
    let named = DIRECTORY.iter().map(|resource| (0, Some(resource.number)));
    let mut records = Vec::new();
    for verb in Verb::ALL {
        for resource in &DIRECTORY {
            for sender in [0, OWNER, FOREMAN] {
                records.push(compose(verb, resource.number, sender, &[]));
            }
        }
    }
    let mut turn = 0;
    for (wildcards, resource) in wildcards.chain(named) {
        for subject in subjects {
            let permissions = [31, 1, 2, 4, 8, 16, 0, 21];
            let mut tables = stages().swap_remove(3);
            let row = |number, permission| access(number, subject, permission, wildcards, resource.as_slice());
            tables.accesses = vec![row(1, permissions[turn % 8])];
            // A second row that adds to the first, or does not fit.
            if turn % 3 == 1 {
                tables.accesses.push(row(2, 2));
            } else if turn % 3 == 2 {
                tables.accesses.insert(
                    0,
                    access(2, Subject::Uuid(uuid(0x56)), MAY_ALL, PLUS | MINUS | STAR, &[DOXM, PSTAT, CRED, ACL2]),
                );
            }
            turn += 1;
            groups.push(Group::new("access rows", &tables, records.clone()));
        }
    }
}

/// Each combination of row owners and device owner against one partner.
pub(super) fn owners(groups: &mut Vec<Group>) {
    for choice in 0..32 {
        for state in [State::Rfnop, State::Sreset] {
            let mut tables = stages().swap_remove(state as usize);
            tables.accesses.clear();
            for place in 0..4 {
                tables.row_owners[place] = (choice >> place & 1 == 1).then(|| uuid(0x22));
            }
            if choice & 16 != 0 {
                tables.device_owner = Some(uuid(0x22));
            }
            let mut records = Vec::new();
            for resource in (DOXM..=ROLES).chain([WEIGHT, DISPLAY]) {
                for verb in Verb::ALL {
                    for sender in [0, OWNER, HAULIER, FOREMAN] {
                        records.push(compose(verb, resource, sender, &[]));
                    }
                }
            }
            groups.push(Group::new("owners", &tables, records));
        }
    }
}

/// Values that differ from the fitting one in a single bit, at each bit.
pub(super) fn near_misses(groups: &mut Vec<Group>) {
    let mut add = |tables: &Tables, records| {
        groups.push(Group::new("near misses", tables, records));
    };
    let base = || Tables { accesses: Vec::new(), row_owners: [None; 4], ..stages().swap_remove(3) };
    let fits: u128 = uuid(0x22).get();
    for bit in 0..128 {
        let near = Uuid::new(fits ^ 1 << bit);
        let mut by_row = base();
        by_row.accesses = near.map(|near| access(1, Subject::Uuid(near), MAY_ALL, STAR, &[CRED])).into_iter().collect();
        let mut by_device_owner = base();
        by_device_owner.device_owner = near;
        let mut by_row_owner = base();
        by_row_owner.row_owners[2] = near;
        for tables in [by_row, by_device_owner, by_row_owner] {
            add(&tables, vec![compose(Verb::Retrieve, CRED, HAULIER, &[])]);
        }
    }
    let mut by_role = base();
    by_role.accesses = vec![access(0x0505, Subject::Role(ROLE), MAY_ALL, STAR, &[CRED, ACL2])];
    for bit in 0..16 {
        for near in [role(ROLE.authority, ROLE.number ^ 1 << bit), role(ROLE.authority ^ 1 << bit, ROLE.number)] {
            let mut other = by_role.clone();
            other.accesses[0].subject = near;
            other.credentials[1].asserted = vec![Asserted { role: ROLE, last: u32::MAX }];
            add(&other, vec![compose(Verb::Retrieve, CRED, FOREMAN, &[]), compose(Verb::Retrieve, CRED, HAULIER, &[])]);
        }
    }
    // Senders, rows to delete and rows to replace, each a bit off.
    by_role.state = State::Sreset;
    let mut records = Vec::new();
    for bit in 0..16 {
        for number in [OWNER, HAULIER, FOREMAN] {
            records.push(compose(Verb::Retrieve, CRED, number ^ 1 << bit, &[]));
            let near = number ^ 1 << bit;
            records.push(compose(Verb::Delete, CRED, OWNER, &near.to_be_bytes()));
            records.push(compose(Verb::Update, CRED, OWNER, &credential(near.max(1), uuid(0x77)).bytes()));
        }
        let near = 0x0505u16 ^ 1 << bit;
        records.push(compose(Verb::Delete, ACL2, OWNER, &near.to_be_bytes()));
        records.push(compose(
            Verb::Update,
            ACL2,
            OWNER,
            &access(near, ANON, MAY_CREATE | MAY_RETRIEVE, STAR, &[]).bytes(),
        ));
    }
    add(&by_role, records);
}

/// Each verb on each resource by each connection, with broad rows, with rows
/// for one connection only and with none, in each state.
pub(super) fn endpoints(groups: &mut Vec<Group>) {
    let mut records = Vec::new();
    for resource in DIRECTORY.iter().map(|resource| resource.number).chain([15, 17]) {
        for verb in Verb::ALL {
            for sender in [0, OWNER, HAULIER, MISSING] {
                for body in [&[][..], &[0x11; 16]] {
                    records.push(compose(verb, resource, sender, body));
                }
            }
        }
    }
    for stage in stages() {
        for accesses in [
            vec![
                access(1, ANON, MAY_ALL, PLUS | MINUS | STAR, &[]),
                access(2, AUTH, MAY_ALL, PLUS | MINUS | STAR, &[]),
            ],
            vec![access(1, ANON, MAY_ALL, STAR, &[])],
            vec![access(2, AUTH, MAY_ALL, STAR, &[])],
            vec![],
        ] {
            groups.push(Group::new("endpoints", &Tables { accesses, ..stage.clone() }, records.clone()));
        }
    }
}
