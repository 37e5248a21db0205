//! The links of /yard (U9): polls of the whole yard, by rows and senders of every
//! kind.

use super::*;

/// Polls of the whole yard: links by rows of their own, by wildcard, by verb and
/// in a period.
pub(super) fn yards(groups: &mut Vec<Group>) {
    let serving = |accesses| Tables { accesses, ..stages().swap_remove(3) };
    let polls = |verbs: &[Verb], senders: &[u16], body: &[u8]| -> Vec<Vec<u8>> {
        let each = verbs.iter().flat_map(|&verb| senders.iter().map(move |&sender| (verb, sender)));
        each.map(|(verb, sender)| compose(verb, YARD, sender, body)).collect()
    };
    const SENDERS: [u16; 5] = [0, OWNER, HAULIER, FOREMAN, MISSING];
    const POLLS: [Verb; 3] = [Verb::Retrieve, Verb::Update, Verb::Observe];
    let haulier = Subject::Uuid(uuid(0x22));

    // Every choice of links to read, the others to write by somebody else.
    for choice in 0..1u8 << 7 {
        let (chosen, others): (Vec<u8>, Vec<u8>) = LINKS.partition(|link| choice >> (link - 8) & 1 == 1);
        let rows = vec![
            access(1, AUTH, MAY_RETRIEVE | MAY_UPDATE, 0, &[YARD]),
            access(2, haulier, MAY_RETRIEVE, 0, &chosen),
            access(3, Subject::Role(ROLE), MAY_UPDATE, 0, &others),
        ];
        let body = &[0x77; 3][..usize::from(choice % 4)];
        groups.push(Group::new("yard", &serving(rows), polls(&Verb::ALL, &SENDERS, body)));
    }
    // One link by each bit of permission, and by all but one.
    for link in LINKS {
        for bit in 0..5 {
            for permission in [1 << bit, 31 ^ 1 << bit] {
                let rows = vec![access(1, haulier, permission, 0, &[link]), access(2, AUTH, MAY_ALL, 0, &[YARD])];
                groups.push(Group::new("yard", &serving(rows), polls(&POLLS, &[HAULIER, FOREMAN], &[])));
            }
        }
    }
    // Wildcards, for each subject, alone and with the yard or a link.
    for wildcards in 0..8 {
        for subject in [AUTH, ANON, haulier, Subject::Role(ROLE)] {
            for permission in [2, 4, 31, 25] {
                let wild = access(1, subject, permission, wildcards, &[]);
                for beside in [
                    None,
                    Some(access(2, AUTH, MAY_RETRIEVE | MAY_UPDATE, 0, &[YARD])),
                    Some(access(2, AUTH, MAY_RETRIEVE | MAY_UPDATE, 0, &[WEIGHT])),
                ] {
                    let rows = [wild.clone()].into_iter().chain(beside).collect();
                    let records = polls(&POLLS, &[0, HAULIER, FOREMAN], &[9]);
                    groups.push(Group::new("yard", &serving(rows), records));
                }
            }
        }
    }
    // Each link in a period of its own, and the yard as well.
    let during = |first, last, row: Access| Access { period: Period { first, last }, ..row };
    let mut rows = vec![during(150, 850, access(1, AUTH, MAY_RETRIEVE | MAY_UPDATE, 0, &[YARD]))];
    for link in LINKS {
        let first = 100 * (u32::from(link) - 7);
        rows.push(during(first, first + 150, access(link.into(), AUTH, MAY_RETRIEVE | MAY_UPDATE, 0, &[link])));
    }
    for end in rows.iter().flat_map(|row| [row.period.first, row.period.last]).chain([0, u32::MAX]) {
        for clock in [end.wrapping_sub(1), end, end.wrapping_add(1)] {
            let records = polls(&POLLS, &[OWNER], &[]);
            groups.push(Group { clock: Some(clock), ..Group::new("yard", &serving(rows.clone()), records) });
        }
    }
}
