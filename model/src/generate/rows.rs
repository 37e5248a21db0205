//! Credential and access rows, with roles (U7, U11) and periods (U8) that often
//! meet.

use super::*;

/// A credential row with a number that none of `held` is.
pub fn credential(random: &mut Random, held: &[u16]) -> Credential {
    Credential {
        number: number_beside(random, held),
        subject: uuid(random),
        role: random.chance(50).then(|| role(random)),
        kind: random.pick(&[0, 1, 2, 4, 8, 16, 32]),
        asserted: asserted(random),
    }
}

/// The roles that a partner has shown, mostly none.
pub(super) fn asserted(random: &mut Random) -> Vec<Asserted> {
    let mut shown: Vec<Asserted> = Vec::new();
    while shown.len() < Asserted::CAPACITY && random.chance(50) {
        let role = role(random);
        if shown.iter().all(|held| held.role != role) {
            shown.push(Asserted { role, last: if random.chance(35) { u32::MAX } else { second(random) } });
        }
    }
    shown
}

/// Makes the role of an access row a partner's role, or the next number.
pub(super) fn meet(random: &mut Random, row: &mut Access, partners: &[Credential]) {
    let held: Vec<Role> = partners.iter().flat_map(|partner| partner.roles(0)).collect();
    let Subject::Role(role) = &mut row.subject else {
        return;
    };
    if held.is_empty() || random.chance(25) {
        return;
    }
    let Role { authority, number } = random.pick(&held);
    *role = match random.below(10) {
        0 | 1 => Role { authority: authority ^ 1 << random.below(16), number },
        2 | 3 => Role { authority: random.pick(&AUTHORITIES), number },
        4 => Role { authority: 0, number },
        5 => Role { authority: number, number: authority.max(1) },
        _ => Role { authority, number },
    };
}

/// An access row with a number that none of `held` is.
pub fn access(random: &mut Random, held: &[u16]) -> Access {
    let subject = match random.below(10) {
        0..=3 => Subject::Uuid(uuid(random)),
        4..=6 => Subject::Role(role(random)),
        7 => Subject::Connection(Connection::AnonClear),
        _ => Subject::Connection(Connection::AuthCrypt),
    };
    let permission = match random.below(10) {
        0 => 0,
        1 | 2 => 31,
        3..=5 => 1 << random.below(5),
        _ => random.below(32) as u8,
    };
    let wildcards = if random.chance(55) { 0 } else { random.below(8) as u8 };
    let set = match random.below(10) {
        0 | 1 => 0,
        2..=4 if random.chance(15) => directory::set_bit(YARD),
        2..=4 => DIRECTORY[random.below(DIRECTORY.len())].bit(),
        // The yard with one or some of its links.
        5 => {
            let chosen =
                if random.chance(50) { directory::set_bit(random.between(8, 14) as u8) } else { random.next() };
            LINKS.fold(directory::set_bit(YARD), |set, link| set | directory::set_bit(link) & chosen)
        }
        6 => directory::known(),
        _ => directory::known() & random.next(),
    };
    Access {
        number: number_beside(random, held),
        subject,
        permission,
        wildcards: Wildcards::from_number(wildcards),
        set,
        period: period(random),
    }
}
