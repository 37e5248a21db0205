//! Rows by the names of their fields: of credentials, of access control entries
//! and of older lists. Reading a row loses no bit, so bad rows can be looked at.

use core::fmt;

use crate::names::{Connection, Permission, Resource, Set, Wildcards};
use crate::text::pad;
use crate::uuid::Uuid;

/// A part of a row, which has as many bytes as the field.
fn part<const N: usize>(row: &[u8], from: usize) -> [u8; N] {
    row[from..from + N].try_into().expect("a part within the row")
}

fn number_at(row: &[u8], from: usize) -> u16 {
    u16::from_be_bytes(part(row, from))
}

fn second_at(row: &[u8], from: usize) -> u32 {
    u32::from_be_bytes(part(row, from))
}

/// A role of an authority. Authority 0 is the works' own; role 0 is none.
#[derive(Clone, Copy, Debug, Default, PartialEq, Eq, Hash)]
pub struct Role {
    /// Whose role it is.
    pub authority: u16,
    /// Its number, 0 for none.
    pub number: u16,
}

impl Role {
    /// No role.
    pub const NONE: Role = Role { authority: 0, number: 0 };
}

impl fmt::Display for Role {
    fn fmt(&self, f: &mut fmt::Formatter) -> fmt::Result {
        pad(f, format_args!("{}@{}", self.number, self.authority))
    }
}

/// A role that a partner has asserted, up to its last second.
#[derive(Clone, Copy, Debug, Default, PartialEq, Eq)]
pub struct Asserted {
    /// The role; none in an unused place.
    pub role: Role,
    /// The last second in which it is in force.
    pub last: u32,
}

impl Asserted {
    /// The length of the body that asserts a role, and of its place in a row.
    pub const LENGTH: usize = 8;

    /// Reads a body or a place.
    pub fn from_bytes(bytes: &[u8; Asserted::LENGTH]) -> Asserted {
        let role = Role { authority: number_at(bytes, 0), number: number_at(bytes, 2) };
        Asserted { role, last: second_at(bytes, 4) }
    }

    /// The body that asserts it.
    pub fn to_bytes(self) -> [u8; Asserted::LENGTH] {
        let mut bytes = [0; Asserted::LENGTH];
        bytes[..2].copy_from_slice(&self.role.authority.to_be_bytes());
        bytes[2..4].copy_from_slice(&self.role.number.to_be_bytes());
        bytes[4..].copy_from_slice(&self.last.to_be_bytes());
        bytes
    }
}

/// A credential row.
///
/// ```
/// use tillerclover::{Cred, Role, Uuid};
/// let row = Cred { number: 20, subject: Uuid([7; 16]), role: Role { authority: 2, number: 7 }, ..Cred::default() };
/// assert_eq!(Cred::from_body(&row.body()), Some(row));
/// assert_eq!(Cred::from_row(&row.to_row()), row);
/// assert_eq!(Cred::from_body(&[0; 22]), None);
/// ```
#[derive(Clone, Copy, Debug, Default, PartialEq, Eq)]
pub struct Cred {
    /// The credential number, not 0.
    pub number: u16,
    /// Who holds it, not nil.
    pub subject: Uuid,
    /// The role that it carries.
    pub role: Role,
    /// Six bits, of which at most one is set. It decides nothing.
    pub kind: u8,
    /// Two zero bits.
    pub zeros: u8,
    /// The places for asserted roles, the first used first.
    pub asserted: [Asserted; 2],
}

impl Cred {
    /// The length of the body that has all its fields.
    pub const LENGTH: usize = 23;
    /// The length of the body without an authority.
    pub const SHORT: usize = 21;
    /// The length of a row of the tables.
    pub const ROW: usize = 39;
    /// That many rows the tables hold.
    pub const CAPACITY: usize = 24;

    /// Reads a row of the tables.
    pub fn from_row(row: &[u8; Cred::ROW]) -> Cred {
        Cred {
            number: number_at(row, 0),
            subject: Uuid(part(row, 2)),
            role: Role { authority: number_at(row, 20), number: number_at(row, 18) },
            kind: row[22] >> 2,
            zeros: row[22] & 3,
            asserted: [23, 31].map(|place| Asserted::from_bytes(&part(row, place))),
        }
    }

    /// Reads a body of either length.
    pub fn from_body(body: &[u8]) -> Option<Cred> {
        let mut row = [0; Cred::ROW];
        match body.len() {
            Cred::LENGTH => row[..Cred::LENGTH].copy_from_slice(body),
            Cred::SHORT => {
                row[..20].copy_from_slice(&body[..20]);
                row[22] = body[20];
            }
            _ => return None,
        }
        Some(Cred::from_row(&row))
    }

    /// The row as the tables hold it.
    pub fn to_row(self) -> [u8; Cred::ROW] {
        let mut row = [0; Cred::ROW];
        row[..2].copy_from_slice(&self.number.to_be_bytes());
        row[2..18].copy_from_slice(&self.subject.0);
        row[18..20].copy_from_slice(&self.role.number.to_be_bytes());
        row[20..22].copy_from_slice(&self.role.authority.to_be_bytes());
        row[22] = self.kind << 2 | self.zeros & 3;
        row[23..31].copy_from_slice(&self.asserted[0].to_bytes());
        row[31..].copy_from_slice(&self.asserted[1].to_bytes());
        row
    }

    /// The body that stores it; asserted roles are no part of it.
    pub fn body(self) -> [u8; Cred::LENGTH] {
        part(&self.to_row(), 0)
    }
}

/// Whom an access row is for.
#[derive(Clone, Copy, Debug, PartialEq, Eq)]
pub enum Subject {
    /// The holders of this UUID.
    Uuid(Uuid),
    /// Partners with this role.
    Role(Role),
    /// Everybody over this connection.
    Connection(Connection),
    /// Bits that no row that can be stored has.
    Other {
        /// The two bits of the kind.
        kind: u8,
        /// The sixteen bytes after it.
        bytes: [u8; 16],
    },
}

impl Subject {
    fn read(kind: u8, bytes: [u8; 16]) -> Subject {
        match (kind, &bytes) {
            (0, _) => Subject::Uuid(Uuid(bytes)),
            (1, [0, 0, 0, 0, 0, 0, 0, 0, 0, 0, 0, 0, ..]) => {
                Subject::Role(Role { authority: number_at(&bytes, 12), number: number_at(&bytes, 14) })
            }
            (2, [0, 0, 0, 0, 0, 0, 0, 0, 0, 0, 0, 0, 0, 0, 0, bit @ 0..=1]) => Subject::Connection(Connection(*bit)),
            _ => Subject::Other { kind, bytes },
        }
    }

    /// Its kind, two bits, and its bytes.
    pub fn bits(self) -> (u8, [u8; 16]) {
        match self {
            Subject::Uuid(uuid) => (0, uuid.0),
            Subject::Role(role) => {
                let number = u32::from(role.authority) << 16 | u32::from(role.number);
                (1, u128::from(number).to_be_bytes())
            }
            Subject::Connection(connection) => (2, u128::from(connection.0).to_be_bytes()),
            Subject::Other { kind, bytes } => (kind & 3, bytes),
        }
    }
}

/// The seconds in which an access row holds, both ends included.
#[derive(Clone, Copy, Debug, PartialEq, Eq)]
pub struct Period {
    /// The first second.
    pub first: u32,
    /// The last second, not before the first.
    pub last: u32,
}

impl Period {
    /// Every second.
    pub const ALWAYS: Period = Period { first: 0, last: u32::MAX };
}

/// An access control entry: a row of the access list.
///
/// ```
/// use tillerclover::{Ace, Connection, Permission, Subject, Wildcards};
/// let row = Ace {
///     number: 3,
///     subject: Subject::Connection(Connection::ANON_CLEAR),
///     permission: Permission::RETRIEVE,
///     wildcards: Wildcards::UNSECURE,
///     ..Ace::default()
/// };
/// assert_eq!(Ace::from_bytes(&row.body()), row);
/// assert_eq!(Ace::from_body(&row.body()[..Ace::SHORT]), Some(row));
/// ```
#[derive(Clone, Copy, Debug, PartialEq, Eq)]
pub struct Ace {
    /// The row's number, not 0.
    pub number: u16,
    /// Whom it is for.
    pub subject: Subject,
    /// What it gives.
    pub permission: Permission,
    /// On what, by wildcards.
    pub wildcards: Wildcards,
    /// Six zero bits.
    pub zeros: u8,
    /// On what, by numbers.
    pub resources: Set,
    /// When it holds.
    pub period: Period,
}

impl Default for Ace {
    /// Number 0, for everybody over auth-crypt, with no permission on nothing, for ever.
    fn default() -> Ace {
        Ace {
            number: 0,
            subject: Subject::Connection(Connection::AUTH_CRYPT),
            permission: Permission::NONE,
            wildcards: Wildcards::NONE,
            zeros: 0,
            resources: Set::EMPTY,
            period: Period::ALWAYS,
        }
    }
}

impl Ace {
    /// The length of a row, and of the body that has all its fields.
    pub const LENGTH: usize = 36;
    /// The length of the body without a period.
    pub const SHORT: usize = 28;
    /// That many rows the tables hold.
    pub const CAPACITY: usize = 32;

    /// Reads a row.
    pub fn from_bytes(row: &[u8; Ace::LENGTH]) -> Ace {
        let bits = number_at(row, 2);
        Ace {
            number: number_at(row, 0),
            subject: Subject::read((bits >> 14) as u8, part(row, 12)),
            permission: Permission((bits >> 9) as u8 & 31),
            wildcards: Wildcards((bits >> 6) as u8 & 7),
            zeros: bits as u8 & 63,
            resources: Set(u64::from_be_bytes(part(row, 4))),
            period: Period { first: second_at(row, 28), last: second_at(row, 32) },
        }
    }

    /// Reads a body of either length.
    pub fn from_body(body: &[u8]) -> Option<Ace> {
        match body.len() {
            Ace::LENGTH => Some(Ace::from_bytes(&part(body, 0))),
            Ace::SHORT => {
                let mut row = [0; Ace::LENGTH];
                row[..Ace::SHORT].copy_from_slice(body);
                Some(Ace { period: Period::ALWAYS, ..Ace::from_bytes(&row) })
            }
            _ => None,
        }
    }

    /// The row, which is the body that stores it.
    pub fn body(self) -> [u8; Ace::LENGTH] {
        let (kind, subject) = self.subject.bits();
        let bits = u16::from(kind) << 14
            | u16::from(self.permission.0 & 31) << 9
            | u16::from(self.wildcards.0 & 7) << 6
            | u16::from(self.zeros & 63);
        let mut row = [0; Ace::LENGTH];
        row[..2].copy_from_slice(&self.number.to_be_bytes());
        row[2..4].copy_from_slice(&bits.to_be_bytes());
        row[4..12].copy_from_slice(&self.resources.0.to_be_bytes());
        row[12..28].copy_from_slice(&subject);
        row[28..32].copy_from_slice(&self.period.first.to_be_bytes());
        row[32..].copy_from_slice(&self.period.last.to_be_bytes());
        row
    }

    /// The security resources in its set.
    pub fn security(self) -> impl Iterator<Item = Resource> {
        self.resources.resources().filter(|resource| resource.is_security())
    }
}

/// A row of an older terminal's list.
#[derive(Clone, Copy, Debug, Default, PartialEq, Eq)]
pub struct OldRow {
    /// Whom it is for; nil represents anybody.
    pub subject: Uuid,
    /// What it gives.
    pub permission: Permission,
    /// Three zero bits.
    pub zeros: u8,
    /// On what.
    pub resources: Set,
}

impl OldRow {
    /// The length of a row.
    pub const LENGTH: usize = 25;

    /// Reads a row.
    pub fn from_bytes(row: &[u8; OldRow::LENGTH]) -> OldRow {
        OldRow {
            subject: Uuid(part(row, 0)),
            permission: Permission(row[16] >> 3),
            zeros: row[16] & 7,
            resources: Set(u64::from_be_bytes(part(row, 17))),
        }
    }

    /// The row.
    pub fn to_bytes(self) -> [u8; OldRow::LENGTH] {
        let mut row = [0; OldRow::LENGTH];
        row[..16].copy_from_slice(&self.subject.0);
        row[16] = self.permission.0 << 3 | self.zeros & 7;
        row[17..].copy_from_slice(&self.resources.0.to_be_bytes());
        row
    }
}

#[cfg(test)]
mod tests {
    use super::*;

    /// Bytes without a pattern.
    fn bytes<const N: usize>(seed: u32) -> [u8; N] {
        let mut state = seed.wrapping_mul(2_654_435_761).wrapping_add(1);
        [0; N].map(|_: u8| {
            state = state.wrapping_mul(1_664_525).wrapping_add(1_013_904_223);
            (state >> 24) as u8
        })
    }

    #[test]
    fn reading_a_row_loses_no_bit() {
        for seed in 0..2000 {
            let row = bytes(seed);
            assert_eq!(Cred::from_row(&row).to_row(), row);
            let mut row: [u8; Ace::LENGTH] = bytes(seed);
            if seed % 2 == 0 {
                row[12..24].fill(0);
            }
            assert_eq!(Ace::from_bytes(&row).body(), row);
            let row = bytes(seed);
            assert_eq!(OldRow::from_bytes(&row).to_bytes(), row);
        }
    }
}
