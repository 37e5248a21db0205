//! Check 1 of the tables: each condition of sound tables broken by itself, and tables
//! of any bytes.

use super::*;

/// Each condition of sound tables broken by itself.
pub(super) fn soundness(groups: &mut Vec<Group>, random: &mut Random) {
    let probes = || vec![compose(Verb::Retrieve, PSTAT, 0, &[]), compose(Verb::Retrieve, WEIGHT, OWNER, &[1]), vec![]];
    let one_probe = || vec![compose(Verb::Retrieve, CRED, OWNER, &[])];
    let mut add = |tables, records| groups.push(Group::on("soundness", tables, records));

    // Every fault on tables of many kinds.
    for (_, fault) in TABLE_FAULTS {
        for _ in 0..40 {
            let mut stored = generate::any_sound(random).bytes();
            if fault(&mut stored, random) {
                add(stored, probes());
            }
        }
    }

    // Every value of the first four bytes.
    for tables in stages() {
        for place in [STATE, OWNED, CREDENTIAL_COUNT, ACCESS_COUNT] {
            for value in 0..=255 {
                let mut stored = tables.bytes();
                stored[place] = value;
                add(stored, one_probe());
            }
        }
    }
    let rows = |count: u16| {
        let mut tables = owned(State::Rfpro);
        tables.credentials.clear();
        tables.accesses.clear();
        for number in 1..=count {
            tables.credentials.push(credential(number, uuid(0x11)));
            tables.accesses.push(access(number, ANON, MAY_RETRIEVE, STAR, &[CRED]));
        }
        tables
    };
    for tables in [rows(23), rows(24)] {
        for value in 20..=40 {
            for place in [CREDENTIAL_COUNT, ACCESS_COUNT] {
                let mut stored = tables.bytes();
                stored[place] = value;
                add(stored, one_probe());
            }
        }
    }

    // A byte set anywhere after the counted rows.
    for count in [0, 2] {
        let base = rows(count).bytes();
        for place in CREDENTIALS.start..SIZE {
            if base[place] == 0 && (place + count as usize).is_multiple_of(2) {
                let mut stored = base;
                stored[place] = 1 << (place % 8);
                add(stored, one_probe());
            }
        }
    }

    // Each forbidden value in the first, a middle and the last row.
    let full = Tables {
        accesses: (1..=32).map(|number| access(number, ANON, MAY_RETRIEVE, STAR, &[CRED])).collect(),
        ..rows(24)
    };
    for (_, fault) in CREDENTIAL_FAULTS {
        for row in [0, 11, 23] {
            let mut stored = full.bytes();
            let place = CREDENTIALS.start + row * Credential::ROW_SIZE;
            fault(&mut stored[place..place + Credential::BODY_SIZE], random);
            add(stored, one_probe());
        }
    }
    for (_, fault) in ASSERTED_FAULTS {
        for row in [0, 11, 23] {
            let mut stored = full.bytes();
            let place = CREDENTIALS.start + row * Credential::ROW_SIZE;
            fault(&mut stored[place + Credential::BODY_SIZE..place + Credential::ROW_SIZE], random);
            add(stored, one_probe());
        }
    }
    for (_, fault) in ACCESS_FAULTS {
        for row in [0, 16, 31] {
            let mut stored = full.bytes();
            let place = ACCESSES.start + row * Access::ROW_SIZE;
            fault(&mut stored[place..place + Access::BODY_SIZE], random);
            add(stored, one_probe());
        }
    }

    // Every bit of a small row turned over: most stay sound.
    let mut small = rows(0);
    let one = Role { authority: 0, number: 1 };
    // The two roles are a bit apart.
    let shown = vec![asserted(0, 1, 0), asserted(0, 3, 0)];
    small.credentials.push(Credential { role: Some(one), kind: 0, asserted: shown, ..credential(OWNER, uuid(0x11)) });
    small.credentials.push(Credential { kind: 0, ..credential(HAULIER, uuid(0x22)) });
    small.accesses.push(access(1, Subject::Role(one), MAY_RETRIEVE, 0, &[CRED]));
    small.accesses.push(access(2, AUTH, MAY_RETRIEVE, 0, &[CRED]));
    let period = Period { first: 0x0101_0101, last: 0x0101_0101 };
    small.accesses.push(Access { period, ..access(3, ANON, 2, 0, &[2]) });
    for place in 0..CREDENTIALS.start + 2 * Credential::ROW_SIZE {
        for bit in 0..8 {
            let mut stored = small.bytes();
            stored[place] ^= 1 << bit;
            add(stored, one_probe());
        }
    }
    for place in ACCESSES.start..ACCESSES.start + 3 * Access::ROW_SIZE {
        for bit in 0..8 {
            let mut stored = small.bytes();
            stored[place] ^= 1 << bit;
            add(stored, one_probe());
        }
    }

    // A number twice, at every pair of rows.
    for first in 0..24 {
        for second in first + 1..24 {
            let mut tables = full.clone();
            tables.credentials[second].number = tables.credentials[first].number;
            add(tables.bytes(), one_probe());
        }
    }
    for first in 0..32 {
        for second in first + 1..32 {
            let mut tables = full.clone();
            tables.accesses[second].number = tables.accesses[first].number;
            add(tables.bytes(), one_probe());
        }
    }

    // Nothing wrong, for contrast.
    add(fresh_bytes(), probes());
    add(full.bytes(), probes());
    for _ in 0..300 {
        add(generate::any_sound(random).bytes(), probes());
    }
}
