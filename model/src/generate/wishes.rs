//! The next step of somebody who sets the terminal up and uses it: a record without its
//! sender, or with one who should send it.

use super::*;

/// A record without its sender, or with one who should send it.
pub(super) struct Wish {
    pub(super) verb: Verb,
    pub(super) resource: u8,
    pub(super) body: Vec<u8>,
    pub(super) sender: Option<u16>,
}

impl Wish {
    pub(super) fn new(verb: Verb, resource: u8, body: Vec<u8>) -> Wish {
        Wish { verb, resource, body, sender: None }
    }

    /// The senders with an endpoint and the permission for it.
    pub(super) fn permitted(&self, tables: &Tables, clock: u32) -> Vec<u16> {
        let Some(resource) = directory::find(self.resource) else {
            return Vec::new();
        };
        let may = |sender, connection| {
            resource.takes(connection) && effective_permission(tables, sender, resource, clock) & self.verb.needs() != 0
        };
        let anon = may(Sender::Unauthenticated, Connection::AnonClear).then_some(0);
        let partners = tables.credentials.iter().filter(|row| may(Sender::Partner(row), Connection::AuthCrypt));
        anon.into_iter().chain(partners.map(Row::number)).collect()
    }

    /// From the right or a permitted sender in that many of a hundred cases, if
    /// there is one.
    pub(super) fn sent(&self, random: &mut Random, tables: &Tables, clock: u32, percent: usize) -> Vec<u8> {
        let permitted = self.permitted(tables, clock);
        let sender = match self.sender {
            Some(sender) if random.chance(percent) => sender,
            None if !permitted.is_empty() && random.chance(percent) => random.pick(&permitted),
            _ => any_sender(random, tables),
        };
        compose(self.verb, self.resource, sender, &self.body)
    }
}

pub(super) fn any_sender(random: &mut Random, tables: &Tables) -> u16 {
    if tables.credentials.is_empty() || random.chance(25) {
        return if random.chance(85) { 0 } else { number(random) };
    }
    if random.chance(7) {
        return number(random);
    }
    tables.credentials[random.below(tables.credentials.len())].number
}

/// The subject of a credential row, so that the new owner can act.
pub(super) fn held_subject(random: &mut Random, tables: &Tables) -> Uuid {
    if tables.credentials.is_empty() || random.chance(5) {
        uuid(random)
    } else {
        tables.credentials[random.below(tables.credentials.len())].subject
    }
}

pub(super) fn target(state: u8) -> Wish {
    Wish::new(Verb::Update, 1, target_body(state))
}

pub(super) fn store_credential(random: &mut Random, tables: &Tables) -> Wish {
    let mut row = credential(random, &[]);
    if !tables.credentials.is_empty() && random.chance(25) {
        let held = &tables.credentials[random.below(tables.credentials.len())];
        row.number = held.number;
        // An owner without a credential is the end of most runs.
        if Some(held.subject) == tables.device_owner && random.chance(85) {
            row.subject = held.subject;
        }
    }
    let mut body = row.bytes();
    match random.below(20) {
        0..=6 => body = row.short_body(),
        7 => spoil::AUTHORITY_WITHOUT_ROLE.1(&mut body, random),
        _ => {}
    }
    Wish::new(Verb::Update, 2, body)
}

pub(super) fn store_access(random: &mut Random, tables: &Tables) -> Wish {
    let mut row = access(random, &[]);
    meet(random, &mut row, &tables.credentials);
    if !tables.accesses.is_empty() && random.chance(20) {
        row.number = tables.accesses[random.below(tables.accesses.len())].number;
    }
    let mut body = row.bytes();
    match random.below(20) {
        0..=6 => body = row.short_body(),
        7 => spoil::FIRST_LATER_THAN_LAST.1(&mut body, random),
        _ => {}
    }
    Wish::new(Verb::Update, 3, body)
}

pub(super) fn delete_row(random: &mut Random, tables: &Tables, held_percent: usize) -> Wish {
    let (resource, held): (u8, Vec<u16>) = if random.chance(50) {
        let spare_owner = random.chance(85);
        let others = tables.credentials.iter().filter(|row| !spare_owner || Some(row.subject) != tables.device_owner);
        (2, others.map(Row::number).collect())
    } else {
        (3, tables.accesses.iter().map(Row::number).collect())
    };
    let row = if !held.is_empty() && random.chance(held_percent) { random.pick(&held) } else { number(random) };
    Wish::new(Verb::Delete, resource, row.to_be_bytes().to_vec())
}

pub(super) fn delete_subject(random: &mut Random, tables: &Tables, held_percent: usize) -> Wish {
    let spare_owner = random.chance(85);
    let others = tables.credentials.iter().map(|row| row.subject);
    let held: Vec<Uuid> = others.filter(|&subject| !spare_owner || Some(subject) != tables.device_owner).collect();
    let subject = if !held.is_empty() && random.chance(held_percent) {
        random.pick(&held)
    } else if !held.is_empty() && random.chance(30) {
        // A bit off.
        Uuid::new(random.pick(&held).get() ^ 1 << random.below(128)).unwrap_or(Uuid::MAX)
    } else {
        uuid(random)
    };
    Wish::new(Verb::Delete, 2, uuid_bytes(Some(subject)).to_vec())
}

pub(super) fn delete_all(random: &mut Random) -> Wish {
    Wish::new(Verb::Delete, random.pick(&[2, 3]), Vec::new())
}

pub(super) fn set_row_owner(random: &mut Random, owner: Option<Uuid>) -> Wish {
    Wish::new(Verb::Update, random.below(4) as u8, uuid_bytes(owner).to_vec())
}

pub(super) fn set_device_owner(owner: Option<Uuid>) -> Wish {
    Wish::new(Verb::Update, 0, device_owner_body(owner))
}

pub(super) fn read_security(random: &mut Random, tables: &Tables) -> Wish {
    let verb = random.weighted(&[(4, Verb::Retrieve), (1, Verb::Observe)]);
    let resource = random.weighted(&[(6, 0), (6, 1), (6, 2), (6, 3), (10, ROLES)]);
    // The roles, mostly by somebody who has some.
    let sender = (resource == ROLES && random.chance(80)).then(|| foreman(random, tables)).flatten();
    Wish { sender: sender.map(Row::number), ..Wish::new(verb, resource, Vec::new()) }
}

/// A partner, mostly one who has shown a role.
pub(super) fn foreman<'a>(random: &mut Random, tables: &'a Tables) -> Option<&'a Credential> {
    let foremen: Vec<&Credential> = tables.credentials.iter().filter(|row| !row.asserted.is_empty()).collect();
    let partners = &tables.credentials;
    match (foremen.is_empty(), partners.is_empty()) {
        (false, _) if random.chance(75) => Some(random.pick(&foremen)),
        (_, false) => Some(&partners[random.below(partners.len())]),
        (_, true) => None,
    }
}

/// A partner shows a role: often the role of an access row, or a role that it
/// has shown before.
pub(super) fn show_role(random: &mut Random, tables: &Tables, clock: u32) -> Wish {
    let wanted = |row: &Access| match row.subject {
        Subject::Role(role) => Some(role),
        _ => None,
    };
    let wanted: Vec<Role> = tables.accesses.iter().filter_map(wanted).collect();
    let partner = foreman(random, tables);
    let shown: Vec<Role> = partner.iter().flat_map(|row| &row.asserted).map(|shown| shown.role).collect();
    let role = match random.below(10) {
        0..=2 if !shown.is_empty() => random.pick(&shown),
        3..=6 if !wanted.is_empty() => random.pick(&wanted),
        _ => role(random),
    };
    let last = match random.below(10) {
        0 => clock,
        1 => clock.saturating_sub(1),
        2 | 3 => clock.saturating_add(random.below(3) as u32),
        4..=8 => u32::MAX,
        _ => second(random),
    };
    let mut body = Asserted { role, last }.bytes();
    if random.chance(4) {
        body[2..4].fill(0);
    }
    Wish { sender: partner.map(Row::number), ..Wish::new(Verb::Update, ROLES, body) }
}

pub(super) fn application(random: &mut Random) -> Wish {
    let length = match random.below(20) {
        0 => random.between(0, RECORD_MAX - HEADER_SIZE),
        1 => RECORD_MAX - HEADER_SIZE,
        2..=6 => 0,
        _ => random.between(1, 24),
    };
    let (verb, resource) = if random.chance(25) {
        let verbs = [(4, Verb::Retrieve), (4, Verb::Update), (2, Verb::Observe), (1, Verb::Create), (1, Verb::Delete)];
        (random.weighted(&verbs), YARD)
    } else {
        (random.pick(&Verb::ALL), random.between(8, 14) as u8)
    };
    Wish::new(verb, resource, random.bytes(length))
}

/// The next step of somebody who sets the terminal up and uses it.
pub(super) fn purposeful(random: &mut Random, tables: &Tables, clock: u32) -> Wish {
    #[derive(Clone, Copy)]
    enum Step {
        Credential,
        Access,
        DeleteRow,
        DeleteSubject,
        DeleteAll,
        RowOwner,
        Claim,
        GiveUp,
        Read,
        Use,
        ShowRole,
        Target(u8),
    }
    use Step::*;
    // Now and then out of place.
    if random.chance(4) {
        return match random.below(6) {
            0 => store_credential(random, tables),
            1 => store_access(random, tables),
            2 => delete_row(random, tables, 30),
            3 => delete_subject(random, tables, 20),
            4 => show_role(random, tables, clock),
            _ => target(random.between(1, 4) as u8),
        };
    }
    let steps: &[(usize, Step)] = match tables.state {
        State::Rfotm if tables.credentials.is_empty() => &[(8, Credential), (1, Access), (1, Read)],
        State::Rfotm if !tables.owned() => &[
            (25, Credential),
            (20, Access),
            (20, Claim),
            (15, RowOwner),
            (4, DeleteRow),
            (2, DeleteSubject),
            (8, Read),
            (2, Target(0)),
        ],
        State::Rfotm => &[
            (20, Credential),
            (20, Access),
            (15, RowOwner),
            (5, Claim),
            (2, GiveUp),
            (4, DeleteRow),
            (2, DeleteSubject),
            (8, Read),
            (25, Target(2)),
            (1, Target(0)),
        ],
        State::Rfpro => &[
            (30, Credential),
            (35, Access),
            (12, DeleteRow),
            (4, DeleteSubject),
            (1, DeleteAll),
            (10, Read),
            (9, Target(3)),
            (3, Target(4)),
            (1, Target(0)),
        ],
        State::Rfnop => &[(65, Use), (28, ShowRole), (15, Read), (4, Target(2)), (2, Target(4)), (1, Target(0))],
        State::Sreset => &[
            (15, RowOwner),
            (12, Claim),
            (10, Credential),
            (10, Access),
            (6, DeleteRow),
            (3, DeleteSubject),
            (2, DeleteAll),
            (8, Read),
            (20, Target(2)),
            (2, Target(0)),
        ],
    };
    match random.weighted(steps) {
        Credential => store_credential(random, tables),
        Access => store_access(random, tables),
        DeleteRow => delete_row(random, tables, 90),
        DeleteSubject => delete_subject(random, tables, 60),
        DeleteAll => delete_all(random),
        RowOwner => {
            let owner = random.chance(80).then(|| held_subject(random, tables));
            set_row_owner(random, owner)
        }
        Claim => set_device_owner(Some(held_subject(random, tables))),
        GiveUp => set_device_owner(None),
        Read => read_security(random, tables),
        Use => {
            let mut wish = application(random);
            for _ in 0..12 {
                if wish.permitted(tables, clock).is_empty() {
                    wish = application(random);
                }
            }
            wish
        }
        ShowRole => show_role(random, tables, clock),
        Target(state) => target(state),
    }
}
