//! The default rows of a build (U5): resets with default lists of every kind, from
//! each state.

use super::*;

/// Resets with default lists of every kind, from each state.
pub(super) fn default_lists(groups: &mut Vec<Group>, random: &mut Random) {
    let credentials = [1, 2, 0x0201, 4].map(|number| Credential { number, ..generate::credential(random, &[]) });
    let accesses = [1, 2, 0x0201, 4].map(|number| Access { number, ..generate::access(random, &[]) });
    let mut lists = Vec::new();
    // Every count of rows with every other.
    for first in 0..=4 {
        for second in 0..=4 {
            lists.push(Defaults::of(&credentials[..first], &accesses[..second]));
        }
    }
    let good = Defaults::of(&credentials[..2], &accesses[..2]);
    // Every length up to three rows.
    let whole = Defaults::of(&credentials[..3], &accesses[..3]);
    for length in 0..=whole.default_aces.len() {
        let cut = |list: &[u8]| list[..length.min(list.len())].to_vec();
        lists.push(Defaults { default_creds: cut(&whole.default_creds), ..good.clone() });
        lists.push(Defaults { default_aces: cut(&whole.default_aces), ..good.clone() });
    }
    // Every bit of two rows turned over, some to forbidden values.
    for bit in 0..good.default_creds.len() * 8 {
        let mut flipped = good.clone();
        flipped.default_creds[bit / 8] ^= 0x80 >> (bit % 8);
        lists.push(flipped);
    }
    for bit in 0..good.default_aces.len() * 8 {
        let mut flipped = good.clone();
        flipped.default_aces[bit / 8] ^= 0x80 >> (bit % 8);
        lists.push(flipped);
    }
    // A number twice, or a bit off it.
    for bit in 0..=16 {
        let near = if bit == 16 { 0x0201 } else { 0x0201u16 ^ 1 << bit };
        let (mut credentials, mut accesses) = (credentials.clone(), accesses.clone());
        credentials[0].number = 0x0201;
        credentials[1].number = near;
        lists.push(Defaults::of(&credentials[..2], &accesses[..2]));
        accesses[0].number = 0x0201;
        accesses[1].number = near;
        lists.push(Defaults::of(&credentials[..2], &accesses[..2]));
        lists.push(Defaults::of(&credentials[..1], &accesses[..2]));
    }
    // Every forbidden row, first, second or alone.
    for place in [0, 1, 2] {
        for (_, fault) in CREDENTIAL_FAULTS {
            let mut list = good.clone();
            list.default_creds.truncate(Credential::BODY_SIZE * if place == 2 { 1 } else { 2 });
            fault(&mut list.default_creds[place % 2 * Credential::BODY_SIZE..][..Credential::BODY_SIZE], random);
            lists.push(list);
        }
        for (_, fault) in ACCESS_FAULTS {
            let mut list = good.clone();
            list.default_aces.truncate(Access::BODY_SIZE * if place == 2 { 1 } else { 2 });
            fault(&mut list.default_aces[place % 2 * Access::BODY_SIZE..][..Access::BODY_SIZE], random);
            lists.push(list);
        }
    }
    // Bodies without an authority or a period are no rows.
    for count in 1..=3 {
        let short = accesses[..count].iter().flat_map(Access::short_body).collect();
        lists.push(Defaults { default_aces: short, ..good.clone() });
        let short = credentials[..count].iter().flat_map(Credential::short_body).collect();
        lists.push(Defaults { default_creds: short, ..good.clone() });
    }
    // The lists in each other's place.
    lists.push(Defaults { default_creds: good.default_aces.clone(), default_aces: good.default_creds.clone() });
    for _ in 0..200 {
        lists.push(generate::defaults(random));
    }
    let stages = stages();
    for (turn, defaults) in lists.into_iter().enumerate() {
        let tables = &stages[turn % stages.len()];
        let sender = if tables.owned() { OWNER } else { 0 };
        let mut records = vec![compose(Verb::Update, PSTAT, sender, &target_body(RESET))];
        if turn % 7 == 0 {
            records.push(compose(Verb::Update, PSTAT, FOREMAN, &target_body(RESET)));
            records.push(compose(Verb::Update, PSTAT, sender, &target_body(RFPRO)));
            records.push(compose(Verb::Delete, CRED, sender, &[]));
            records.push(compose(Verb::Delete, ACL2, sender, &[]));
            records.push(compose(Verb::Update, DOXM, sender, &device_owner_body(None)));
        }
        groups.push(Group { defaults: Some(defaults), ..Group::new("default lists", tables, records) });
    }
}
