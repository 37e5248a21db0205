//! Records of paper 01: the cases worked out by hand, lengths, headers, and bodies of
//! the security resources in each state.

use super::*;

pub(super) fn hand_worked(groups: &mut Vec<Group>) {
    for example in examples::all() {
        groups.push(Group {
            clock: Some(example.clock),
            capacity: Some(example.capacity),
            defaults: Some(Defaults::none()),
            ..Group::on("worked by hand", example.tables, vec![example.record])
        });
    }
}

/// Lengths 0 to 300, with headers that stop at different checks.
pub(super) fn lengths(groups: &mut Vec<Group>) {
    let starts: [[u8; 4]; 9] = [
        [0x22, 0x00, 0x00, 0x00], // RETRIEVE /weight
        [0x32, 0x00, 0x00, 0x05], // the same, row 5
        [0x40, 0x80, 0x00, 0x00], // UPDATE cred
        [0x50, 0xC0, 0x00, 0x05], // UPDATE acl2, row 5
        [0x50, 0x00, 0x00, 0x05], // UPDATE doxm, row 5
        [0x70, 0x80, 0x00, 0x05], // DELETE cred, row 5
        [0x30, 0x40, 0x00, 0x05], // RETRIEVE pstat, row 5
        [0xE2, 0x00, 0x00, 0x00], // verb 7
        [0x32, 0x00, 0x00, 0x00], // row 0
    ];
    for tables in [&stages()[0], &stages()[3], &open_stages()[3]] {
        let mut records = Vec::new();
        for start in starts {
            for length in 0..=300 {
                let mut record: Vec<u8> =
                    start.into_iter().chain((0..).map(|byte: u16| byte as u8)).take(length).collect();
                records.push(record.clone());
                if length > 4 {
                    record[4..].fill(0);
                    records.push(record);
                }
            }
        }
        groups.push(Group::new("lengths", tables, records));
    }
}

/// Each verb, connection and resource number, and each header zero bit.
pub(super) fn headers(groups: &mut Vec<Group>) {
    for tables in stages().iter().chain(&open_stages()) {
        groups.push(Group::new("headers", tables, header_records()));
    }
}

pub(super) fn header_records() -> Vec<Vec<u8>> {
    let mut records = Vec::new();
    for verb in 0..8 {
        for connection in [Connection::AnonClear, Connection::AuthCrypt] {
            for resource in 0..64 {
                // A sample is enough of what no check looks at any more.
                let known = directory::find(resource).is_some();
                let sampled = resource % 5 == verb % 5;
                if !sampled && (verb > 4 || !known && resource > 20) {
                    continue;
                }
                let senders: &[u16] = match connection {
                    Connection::AnonClear if sampled => &[0, OWNER],
                    Connection::AnonClear => &[0],
                    Connection::AuthCrypt if sampled => &[0, OWNER, HAULIER, FOREMAN, MISSING],
                    Connection::AuthCrypt => &[OWNER, HAULIER, FOREMAN],
                };
                for &credential in senders {
                    let header = Header { verb, connection, resource, zeros: 0, credential };
                    records.push(header.with_body(&[]));
                }
            }
        }
    }
    for bit in 0..6 {
        for verb in 0..8 {
            for credential in [0, OWNER, MISSING] {
                for connection in [Connection::AnonClear, Connection::AuthCrypt] {
                    let header = Header { verb, connection, resource: 63, zeros: 1 << bit, credential };
                    records.push(header.with_body(&[]));
                }
            }
        }
    }
    records
}

/// Bodies of every short length for each verb of each security resource.
pub(super) fn body_lengths(groups: &mut Vec<Group>) {
    for tables in stages() {
        let sender = if tables.owned() { OWNER } else { 0 };
        let mut records = Vec::new();
        for resource in DOXM..=ROLES {
            for verb in Verb::ALL {
                for length in 0..=38 {
                    for byte in [0x00, 0x11, 0x80] {
                        records.push(compose(verb, resource, sender, &vec![byte; length]));
                    }
                }
            }
        }
        groups.push(Group::new("body lengths", &tables, records));
    }
}

/// Every byte as a target, in each state, from the owner and from others.
pub(super) fn targets(groups: &mut Vec<Group>) {
    for tables in stages() {
        let senders: &[u16] = if tables.owned() { &[OWNER, HAULIER, FOREMAN, 0] } else { &[0, MISSING] };
        let records = senders
            .iter()
            .flat_map(|&sender| {
                // From those who may not, the eight values of the field only.
                let step = if sender == senders[0] { 1 } else { 32 };
                (0..=255).step_by(step).map(move |byte| compose(Verb::Update, PSTAT, sender, &[byte]))
            })
            .collect();
        groups.push(Group::new("targets", &tables, records));
    }
}

pub(super) fn credential_bodies(groups: &mut Vec<Group>) {
    for tables in [&stages()[0], &stages()[2], &stages()[4]] {
        let sender = if tables.owned() { OWNER } else { 0 };
        let mut records = Vec::new();
        let role = Role { authority: 0, number: 7 };
        let plain = Credential { role: Some(role), kind: 0, ..credential(6, uuid(0x44)) };
        // One bit of the subject: turned over it is nil. One of the role: turned
        // over it is none, with an authority and without.
        let one = 1u128.try_into().unwrap();
        let slight = Credential { kind: 1, ..credential(1, one) };
        let other = Credential { role: Some(Role { authority: 0x0801, number: 4 }), ..slight.clone() };
        for row in [&plain, &slight, &other] {
            for body in [row.bytes(), row.short_body()] {
                records.extend(flips(&compose(Verb::Update, CRED, sender, &body), 4));
            }
        }
        for body in [plain.bytes(), plain.short_body(), other.bytes()] {
            for last in 0..=255 {
                let mut body = body.clone();
                *body.last_mut().unwrap() = last;
                records.push(compose(Verb::Update, CRED, sender, &body));
            }
        }
        // Roles and authorities side by side, 0 among them, and bodies a byte
        // shorter or longer.
        for role in [0, 1, 7, 0x0100, 0xFFFF] {
            for authority in [0, 1, 7, 0x0100, 0xFFFF] {
                let mut body = plain.bytes();
                body[Credential::ROLE].copy_from_slice(&u16::to_be_bytes(role));
                body[Credential::AUTHORITY].copy_from_slice(&u16::to_be_bytes(authority));
                records.push(compose(Verb::Update, CRED, sender, &body));
                for gap in 18..23 {
                    let mut body = body.clone();
                    body.remove(gap);
                    records.push(compose(Verb::Update, CRED, sender, &body));
                    body.remove(gap.min(21));
                    records.push(compose(Verb::Update, CRED, sender, &body));
                }
                body.push(0);
                records.push(compose(Verb::Update, CRED, sender, &body));
            }
        }
        groups.push(Group::new("credential bodies", tables, records));
    }
}

pub(super) fn access_bodies(groups: &mut Vec<Group>) {
    for tables in [&stages()[0], &stages()[2], &stages()[4]] {
        let sender = if tables.owned() { OWNER } else { 0 };
        let mut records = Vec::new();
        let one = 1u128.try_into().unwrap();
        for subject in
            [Subject::Uuid(uuid(0x44)), Subject::Uuid(one), role(0, 1), role(0, 0x8100), role(0x0801, 2), ANON, AUTH]
        {
            let row = access(6, subject, MAY_CREATE | MAY_RETRIEVE, 0, &[WEIGHT]);
            let body = row.bytes();
            records.extend(flips(&compose(Verb::Update, ACL2, sender, &body), 4));
            records.push(compose(Verb::Update, ACL2, sender, &row.short_body()));
            // Kind, permission and wildcards in all their values.
            for value in (0..1024u16).filter(|value| value % 2 == 0 || subject == role(0, 1)) {
                let mut body = body.clone();
                body[2..4].copy_from_slice(&(value << 6).to_be_bytes());
                records.push(compose(Verb::Update, ACL2, sender, &body));
            }
        }
        // Bodies without a period; periods of one second, of two, and turned
        // round; bodies of lengths between.
        let row = access(6, ANON, MAY_CREATE | MAY_RETRIEVE, 0, &[WEIGHT]);
        records.extend(flips(&compose(Verb::Update, ACL2, sender, &row.short_body()), 4));
        const MAX: u32 = u32::MAX;
        for second in [0, 1, 0x00FF_FFFF, 0x0102_0304, 0x7FFF_FFFF, 0x8000_0000, MAX - 1, MAX] {
            let around = [0, 1, second.saturating_sub(1), second, second.saturating_add(1), second.swap_bytes(), MAX];
            for other in around {
                for (first, last) in [(second, other), (other, second)] {
                    let body = Access { period: Period { first, last }, ..row.clone() }.bytes();
                    records.push(compose(Verb::Update, ACL2, sender, &body));
                }
            }
            let single = Access { period: Period { first: second, last: second }, ..row.clone() }.bytes();
            records.extend(flips(&compose(Verb::Update, ACL2, sender, &single), 4 + Access::SHORT_BODY_SIZE));
            for length in 28..=36 {
                records.push(compose(Verb::Update, ACL2, sender, &single[..length]));
            }
        }
        groups.push(Group::new("access bodies", tables, records));
    }
}

/// Device owners and row owners, in each state, from each sender.
pub(super) fn owner_bodies(groups: &mut Vec<Group>) {
    for tables in stages() {
        let mut records = Vec::new();
        for sender in [0, OWNER, HAULIER, FOREMAN] {
            for owner in [None, Some(uuid(0x11)), Some(uuid(0x44))] {
                let device = compose(Verb::Update, DOXM, sender, &device_owner_body(owner));
                let writes = sender == if tables.owned() { OWNER } else { 0 };
                if writes {
                    records.extend(flips(&device, 4));
                    for first in 0..=255 {
                        let mut record = device.clone();
                        record[4] = first;
                        records.push(record);
                    }
                }
                records.push(device);
                for resource in DOXM..=ROLES {
                    records.push(compose(Verb::Update, resource, sender, &uuid_bytes(owner)));
                }
            }
        }
        groups.push(Group::new("owner bodies", &tables, records));
    }
}
