//! Roles with an authority (U7), and those that a partner shows on the day (U11):
//! against rows, and in the places of a partner.

use super::*;

/// Each role that a partner may have against each that a row may be for.
pub(super) fn roles(groups: &mut Vec<Group>) {
    let mut pool = Vec::new();
    for authority in [0, 1, 7, 0x0100, 0x0700, 0x8000, 0xFFFF] {
        pool.extend([1, 7, 0x0100].map(|number| Role { authority, number }));
    }
    let mut tables = owned(State::Rfnop);
    for (number, &role) in (0x0600..).zip(&pool) {
        tables.credentials.push(Credential { role: Some(role), ..credential(number, uuid(0x66)) });
    }
    let partners: Vec<u16> = tables.credentials.iter().map(Row::number).collect();
    for &wanted in &pool {
        tables.accesses = vec![access(1, Subject::Role(wanted), MAY_RETRIEVE | MAY_NOTIFY, 0, &[CRED, WEIGHT])];
        let records =
            partners.iter().flat_map(|&partner| [CRED, WEIGHT].map(|to| compose(Verb::Retrieve, to, partner, &[])));
        groups.push(Group::new("roles", &tables, records.collect()));
    }
}

/// Roles that are shown: by each sender in each state, and every bit of a body
/// turned over.
pub(super) fn asserted_bodies(groups: &mut Vec<Group>) {
    let bodies = [asserted(0, 7, 0), asserted(0x0203, 0x0107, u32::MAX), asserted(0xFFFF, 1, 0x0102_0304)];
    for tables in stages().iter().chain(&open_stages()) {
        let mut records = Vec::new();
        for sender in [0, OWNER, HAULIER, FOREMAN, MISSING] {
            for shown in bodies {
                records.push(compose(Verb::Update, ROLES, sender, &shown.bytes()));
            }
            for body in [&[0; 8][..], &[0, 9, 0, 0, 0, 0, 0, 9], &[0, 0, 0, 9, 0, 0, 0], &[1; 16]] {
                records.push(compose(Verb::Update, ROLES, sender, body));
            }
            for verb in Verb::ALL {
                records.push(compose(verb, ROLES, sender, &[]));
            }
        }
        groups.push(Group::new("roles shown", tables, records));
    }
    let mut records = Vec::new();
    for shown in bodies.into_iter().chain([asserted(0, 1, 0), asserted(0, 0x8000, 1)]) {
        records.extend(flips(&compose(Verb::Update, ROLES, HAULIER, &shown.bytes()), 4));
    }
    groups.push(Group::new("roles shown", &stages()[3], records));
}

/// Each role that a partner asserts after each that it has asserted: in force, in
/// the last second, expired. Then what it may read and use.
pub(super) fn asserted_places(groups: &mut Vec<Group>) {
    const NOW: u32 = 0x0001_0000;
    let around = [NOW - 1, NOW, NOW + 1];
    let first = around.map(|last| asserted(2, 7, last));
    let second = around.map(|last| asserted(2, 8, last));
    let mut held: Vec<Vec<Asserted>> = vec![Vec::new()];
    held.extend(first.map(|shown| vec![shown]));
    held.extend(first.iter().flat_map(|&one| second.map(|other| vec![one, other])));
    let mut records = Vec::new();
    for (authority, number) in [(2, 7), (2, 8), (2, 9), (3, 7), (7, 2), (8, 2), (0, 7)] {
        for last in around.into_iter().chain([0, u32::MAX]) {
            records.push(compose(Verb::Update, ROLES, HAULIER, &asserted(authority, number, last).bytes()));
        }
        records.push(compose(Verb::Update, ROLES, OWNER, &asserted(authority, number, NOW).bytes()));
    }
    for resource in [CRED, ROLES, WEIGHT, YARD] {
        records.push(compose(Verb::Retrieve, resource, HAULIER, &[]));
        records.push(compose(Verb::Observe, resource, HAULIER, &[]));
        records.push(compose(Verb::Retrieve, resource, FOREMAN, &[]));
        records.push(compose(Verb::Retrieve, resource, OWNER, &[]));
    }
    for shown in &held {
        for others in [Vec::new(), vec![asserted(2, 7, NOW)], vec![asserted(2, 9, NOW), asserted(2, 7, NOW - 1)]] {
            let mut tables = stages().swap_remove(3);
            tables.credentials[1].asserted = shown.clone();
            tables.credentials[2].asserted = others.clone();
            tables.credentials[0].asserted = others;
            tables.accesses = vec![
                access(1, role(2, 7), MAY_RETRIEVE, 0, &[CRED, WEIGHT]),
                access(2, role(2, 8), MAY_RETRIEVE | MAY_NOTIFY, 0, &[8, YARD]),
                access(3, role(2, 9), MAY_RETRIEVE, STAR, &[]),
            ];
            groups.push(Group { clock: Some(NOW), ..Group::new("roles shown", &tables, records.clone()) });
            // Read with buffers that just fit and just don't.
            let reads = [HAULIER, FOREMAN, OWNER, 0].map(|sender| compose(Verb::Retrieve, ROLES, sender, &[]));
            for (capacity, clock) in
                [0, 7, 8, 9, 15, 16, 17].into_iter().flat_map(|capacity| around.map(|clock| (capacity, clock)))
            {
                let read = Group::new("roles shown", &tables, reads.to_vec());
                groups.push(Group { clock: Some(clock), capacity: Some(capacity), ..read });
            }
        }
    }
}

/// Each role that a partner has shown against each that a row may be for; last
/// seconds a bit off the clock.
pub(super) fn asserted_fits(groups: &mut Vec<Group>) {
    let mut pool = Vec::new();
    for authority in [0, 1, 7, 0x0100, 0x0700, 0x8000, 0xFFFF] {
        pool.extend([1, 7, 0x0100].map(|number| Role { authority, number }));
    }
    let mut tables = owned(State::Rfnop);
    for (number, &role) in (0x0600..).zip(&pool) {
        let shown = Asserted { role, last: 1000 };
        // As the second role of every other row.
        let asserted = if number % 2 == 0 { vec![shown] } else { vec![asserted(9, 9, 2000), shown] };
        tables.credentials.push(Credential { asserted, ..credential(number, uuid(0x66)) });
    }
    let partners: Vec<u16> = tables.credentials.iter().map(Row::number).collect();
    for &wanted in &pool {
        tables.accesses = vec![access(1, Subject::Role(wanted), MAY_RETRIEVE | MAY_NOTIFY, 0, &[CRED, WEIGHT])];
        let records: Vec<Vec<u8>> = partners
            .iter()
            .map(|&partner| compose(Verb::Retrieve, if partner % 3 == 0 { 2 } else { 8 }, partner, &[]))
            .collect();
        for clock in [999, 1000, 1001] {
            groups.push(Group { clock: Some(clock), ..Group::new("roles shown", &tables, records.clone()) });
        }
    }
    for last in [0x0102_0304, 0, u32::MAX] {
        let mut tables = stages().swap_remove(3);
        tables.credentials[1].asserted = vec![asserted(2, 7, last)];
        tables.accesses = vec![access(1, role(2, 7), MAY_RETRIEVE, 0, &[WEIGHT])];
        let records = vec![
            compose(Verb::Retrieve, WEIGHT, HAULIER, &[]),
            compose(Verb::Retrieve, ROLES, HAULIER, &[]),
            compose(Verb::Update, ROLES, HAULIER, &asserted(2, 8, last).bytes()),
        ];
        for clock in (0..32).map(|bit| last ^ 1 << bit).chain([last]) {
            groups.push(Group { clock: Some(clock), ..Group::new("roles shown", &tables, records.clone()) });
        }
    }
}
