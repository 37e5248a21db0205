//! Seasons (U8): rows with periods against clocks at, around and far from their
//! ends.

use super::*;

/// Rows with periods against clocks at, around and far from their ends.
pub(super) fn periods(groups: &mut Vec<Group>) {
    const MAX: u32 = u32::MAX;
    let periods = [
        (0, MAX),
        (0, 0),
        (MAX, MAX),
        (1, MAX),
        (0, MAX - 1),
        (1, MAX - 1),
        (1000, 2000),
        (1000, 1000),
        (1000, 1001),
        (0x00FF_FFFF, 0x0100_0000),
        (0x7FFF_FFFF, 0x8000_0000),
        (0x0102_0304, 0x0403_0201),
        (0x0100, 0x0001_0000),
    ];
    let subjects = [ANON, AUTH, Subject::Role(ROLE), Subject::Uuid(uuid(0x22))];
    for (turn, (first, last)) in periods.into_iter().enumerate() {
        let mut clocks = vec![0, 1, MAX - 1, MAX, first.swap_bytes(), last.swap_bytes(), first + (last - first) / 2];
        for end in [first, last] {
            clocks.extend([end.wrapping_sub(1), end, end.wrapping_add(1)]);
        }
        clocks.sort();
        clocks.dedup();
        let (later_first, later_last) = periods[(turn + 3) % periods.len()];
        for subject in subjects {
            let mut tables = stages().swap_remove(3);
            let row = |number, permission, first, last| {
                let period = Period { first, last };
                Access { period, ..access(number, subject, permission, 0, &[2, 8]) }
            };
            // A second row that adds to the first in a time of its own.
            tables.accesses = vec![row(1, 2, first, last), row(2, 6, later_first, later_last)];
            tables.row_owners = [None; 4];
            let mut records = Vec::new();
            for sender in [0, HAULIER, FOREMAN] {
                for resource in [CRED, WEIGHT] {
                    records.push(compose(Verb::Retrieve, resource, sender, &[]));
                }
                records.push(compose(Verb::Update, WEIGHT, sender, &[7]));
            }
            for &clock in &clocks {
                groups.push(Group { clock: Some(clock), ..Group::new("periods", &tables, records.clone()) });
            }
        }
    }
    // A single second, and every clock that is a bit off.
    for second in [0x0102_0304, 0, MAX] {
        let mut tables = stages().swap_remove(3);
        let row = access(1, ANON, MAY_RETRIEVE, 0, &[WEIGHT]);
        tables.accesses = vec![Access { period: Period { first: second, last: second }, ..row }];
        for bit in 0..32 {
            let records = vec![compose(Verb::Retrieve, WEIGHT, 0, &[])];
            groups.push(Group { clock: Some(second ^ 1 << bit), ..Group::new("periods", &tables, records) });
        }
    }
}
