//! The tables, read from and written to their 2,172 bytes.

use std::num::NonZeroU128;
use std::ops::Range;

use crate::bits::{Fields, Packer};
use crate::directory::{self, Security};

/// The bytes of the tables.
pub type TableBytes = [u8; SIZE];

pub const SIZE: usize = 2172;
pub const STATE: usize = 0;
pub const OWNED: usize = 1;
pub const CREDENTIAL_COUNT: usize = 2;
pub const ACCESS_COUNT: usize = 3;
pub const DEVICE_OWNER: Range<usize> = 4..20;
pub const ROW_OWNERS: Range<usize> = 20..84;
pub const CREDENTIALS: Range<usize> = 84..1020;
pub const ACCESSES: Range<usize> = 1020..2172;

/// A UUID other than nil; nil is `None`.
pub type Uuid = NonZeroU128;

#[derive(Clone, Copy, Debug, PartialEq, Eq)]
pub enum State {
    Rfotm = 1,
    Rfpro = 2,
    Rfnop = 3,
    Sreset = 4,
}

/// The target states as numbers. RESET is no state: entering it makes fresh tables.
pub const RESET: u8 = 0;
pub const RFOTM: u8 = State::Rfotm as u8;
pub const RFPRO: u8 = State::Rfpro as u8;
pub const RFNOP: u8 = State::Rfnop as u8;
pub const SRESET: u8 = State::Sreset as u8;

impl State {
    pub const ALL: [State; 4] = [State::Rfotm, State::Rfpro, State::Rfnop, State::Sreset];

    pub fn from_number(number: u8) -> Option<State> {
        State::ALL.into_iter().find(|&state| state as u8 == number)
    }
}

#[derive(Clone, Copy, Debug, PartialEq, Eq)]
pub enum Connection {
    AnonClear = 0,
    AuthCrypt = 1,
}

/// The connections as subjects of an access row.
const ANON_CLEAR: u128 = Connection::AnonClear as u128;
const AUTH_CRYPT: u128 = Connection::AuthCrypt as u128;

/// The number of a row, in either table, in a body and in a list.
pub const NUMBER: Range<usize> = 0..2;

/// A row of either table.
pub trait Row: Sized {
    /// The length of the body that has all its fields, and of a row in a reply and in a
    /// list.
    const BODY_SIZE: usize;
    /// The length of a row in the tables.
    const ROW_SIZE: usize;
    const CAPACITY: usize;

    /// The row that a body stores; None for another length or a forbidden value.
    fn from_body(body: &[u8]) -> Option<Self>;
    /// The body that has all its fields.
    fn bytes(&self) -> Vec<u8>;
    fn number(&self) -> u16;

    /// None for another length than that of a body with all its fields, or a
    /// forbidden value.
    fn read(row: &[u8]) -> Option<Self> {
        if row.len() == Self::BODY_SIZE {
            Self::from_body(row)
        } else {
            None
        }
    }

    /// A row of the tables; None for a forbidden value.
    fn from_stored(row: &[u8]) -> Option<Self> {
        Self::read(row)
    }

    /// The row as the tables hold it.
    fn stored(&self) -> Vec<u8> {
        self.bytes()
    }
}

/// A role of an authority. Authority 0 is the works; role 0 is none and does not
/// occur here.
#[derive(Clone, Copy, Debug, PartialEq, Eq, PartialOrd, Ord)]
pub struct Role {
    pub authority: u16,
    pub number: u16,
}

impl Role {
    /// None for number 0.
    fn new(authority: u16, number: u16) -> Option<Role> {
        (number != 0).then_some(Role { authority, number })
    }
}

/// A role that a partner has asserted for a while.
#[derive(Clone, Copy, Debug, PartialEq, Eq)]
pub struct Asserted {
    pub role: Role,
    pub last: u32,
}

impl Asserted {
    /// Of a body, in a row of the tables, and in a reply.
    pub const SIZE: usize = 8;
    /// A row holds that many.
    pub const CAPACITY: usize = 2;

    /// Its fields: the authority and the number of the role, only the number, the
    /// last second.
    pub const ROLE: Range<usize> = 0..4;
    pub const ROLE_NUMBER: Range<usize> = 2..4;
    pub const LAST: Range<usize> = 4..8;

    /// None for another length or role 0.
    pub fn from_body(body: &[u8]) -> Option<Asserted> {
        if body.len() != Self::SIZE {
            return None;
        }
        let mut fields = Fields::new(body);
        let role = Role::new(fields.take(16) as u16, fields.take(16) as u16)?;
        Some(Asserted { role, last: fields.take(32) as u32 })
    }

    pub fn bytes(&self) -> Vec<u8> {
        let Asserted { role: Role { authority, number }, last } = *self;
        Packer::new().put(authority.into(), 16).put(number.into(), 16).put(last.into(), 32).bytes()
    }

    /// Up to its last second, that one included.
    pub fn in_force(&self, clock: u32) -> bool {
        clock <= self.last
    }
}

#[derive(Clone, Debug, PartialEq, Eq)]
pub struct Credential {
    pub number: u16,
    pub subject: Uuid,
    pub role: Option<Role>,
    /// Kept, and asked by no rule.
    pub kind: u8,
    /// In order of arrival. No body has them.
    pub asserted: Vec<Asserted>,
}

impl Credential {
    /// The roles that it has now: the stored one, and the asserted ones in force.
    pub fn roles(&self, clock: u32) -> impl Iterator<Item = Role> + '_ {
        let asserted = self.asserted.iter().filter(move |asserted| asserted.in_force(clock));
        self.role.into_iter().chain(asserted.map(|asserted| asserted.role))
    }

    /// A body without an authority, which means authority 0.
    pub const SHORT_BODY_SIZE: usize = 21;

    /// The fields of a body, and the asserted roles of a row.
    pub const SUBJECT: Range<usize> = 2..18;
    pub const ROLE: Range<usize> = 18..20;
    pub const AUTHORITY: Range<usize> = 20..22;
    pub const TYPE: usize = 22;
    pub const ASSERTED: Range<usize> = Self::BODY_SIZE..Self::ROW_SIZE;

    /// The body without the authority.
    pub fn short_body(&self) -> Vec<u8> {
        let mut body = self.bytes();
        body.drain(Self::AUTHORITY);
        body
    }
}

impl Row for Credential {
    const BODY_SIZE: usize = 23;
    const ROW_SIZE: usize = Self::BODY_SIZE + Asserted::CAPACITY * Asserted::SIZE;
    const CAPACITY: usize = 24;

    fn from_body(body: &[u8]) -> Option<Credential> {
        let has_authority = match body.len() {
            Self::BODY_SIZE => true,
            Self::SHORT_BODY_SIZE => false,
            _ => return None,
        };
        let mut fields = Fields::new(body);
        let number = fields.take(16) as u16;
        let subject = Uuid::new(fields.take(128))?;
        let role = fields.take(16) as u16;
        let authority = if has_authority { fields.take(16) as u16 } else { 0 };
        let kind = fields.take(6) as u8;
        let zeros = fields.take(2);
        if number == 0 || kind.count_ones() > 1 || zeros != 0 {
            return None;
        }
        let role = Role::new(authority, role);
        if role.is_none() && authority != 0 {
            return None;
        }
        Some(Credential { number, subject, role, kind, asserted: Vec::new() })
    }

    fn bytes(&self) -> Vec<u8> {
        Packer::new()
            .put(self.number.into(), 16)
            .put(self.subject.get(), 128)
            .put(self.role.map_or(0, |role| role.number).into(), 16)
            .put(self.role.map_or(0, |role| role.authority).into(), 16)
            .put(self.kind.into(), 6)
            .put(0, 2)
            .bytes()
    }

    fn number(&self) -> u16 {
        self.number
    }

    /// A body, then two asserted roles. The first is used before the second, and one
    /// that is not used is zero.
    fn from_stored(row: &[u8]) -> Option<Credential> {
        let (body, roles) = row.split_at(Self::BODY_SIZE);
        let mut credential = Self::read(body)?;
        let used = roles.chunks_exact(Asserted::SIZE).take_while(|role| role.iter().any(|&byte| byte != 0));
        for role in used {
            let asserted = Asserted::from_body(role)?;
            if credential.asserted.iter().any(|earlier| earlier.role == asserted.role) {
                return None;
            }
            credential.asserted.push(asserted);
        }
        let unused = &roles[credential.asserted.len() * Asserted::SIZE..];
        unused.iter().all(|&byte| byte == 0).then_some(credential)
    }

    fn stored(&self) -> Vec<u8> {
        let mut row = self.bytes();
        row.extend(self.asserted.iter().flat_map(Asserted::bytes));
        row.resize(Self::ROW_SIZE, 0);
        row
    }
}

#[derive(Clone, Debug, PartialEq, Eq)]
pub struct Access {
    pub number: u16,
    pub subject: Subject,
    pub permission: u8,
    pub wildcards: Wildcards,
    /// The top bit is that of resource 0.
    pub set: u64,
    pub period: Period,
}

/// The seconds of the terminal's clock in which an access row holds, both ends
/// included. None ends before it begins.
#[derive(Clone, Copy, Debug, PartialEq, Eq, PartialOrd, Ord)]
pub struct Period {
    pub first: u32,
    pub last: u32,
}

impl Period {
    /// Every second that the clock can show.
    pub const ALWAYS: Period = Period { first: 0, last: u32::MAX };

    /// None when it ends before it begins.
    pub fn new(first: u32, last: u32) -> Option<Period> {
        (first <= last).then_some(Period { first, last })
    }

    pub fn holds_at(self, clock: u32) -> bool {
        self.first <= clock && clock <= self.last
    }
}

#[derive(Clone, Copy, Debug, PartialEq, Eq)]
pub enum Subject {
    Uuid(Uuid),
    Role(Role),
    Connection(Connection),
}

/// The kinds of subjects, as numbers of an access row.
pub const SUBJECT_UUID: u8 = 0;
pub const SUBJECT_ROLE: u8 = 1;
pub const SUBJECT_CONNECTION: u8 = 2;

/// The wildcards, as bits of an access row.
pub const STAR: u8 = 1;
pub const MINUS: u8 = 2;
pub const PLUS: u8 = 4;

#[derive(Clone, Copy, Debug, Default, PartialEq, Eq)]
pub struct Wildcards {
    pub plus: bool,
    pub minus: bool,
    pub star: bool,
}

impl Wildcards {
    pub fn from_number(number: u8) -> Wildcards {
        Wildcards { plus: number & PLUS != 0, minus: number & MINUS != 0, star: number & STAR != 0 }
    }
}

impl Access {
    /// A body without a period, which means every second.
    pub const SHORT_BODY_SIZE: usize = 28;

    /// The fields of a row. KIND is the top two bits of its byte; AUTHORITY and ROLE
    /// are those of a role subject, CONNECTION that of a connection.
    pub const KIND: usize = 2;
    pub const ZEROS: usize = 3;
    pub const SET: Range<usize> = 4..12;
    pub const SUBJECT: Range<usize> = 12..28;
    pub const AUTHORITY: Range<usize> = 24..26;
    pub const ROLE: Range<usize> = 26..28;
    pub const CONNECTION: usize = 27;
    pub const FIRST: Range<usize> = 28..32;
    pub const LAST: Range<usize> = 32..36;

    /// The body without the period.
    pub fn short_body(&self) -> Vec<u8> {
        let mut body = self.bytes();
        body.truncate(Self::SHORT_BODY_SIZE);
        body
    }
}

impl Row for Access {
    const BODY_SIZE: usize = 36;
    const ROW_SIZE: usize = Self::BODY_SIZE;
    const CAPACITY: usize = 32;

    fn from_body(body: &[u8]) -> Option<Access> {
        let has_period = match body.len() {
            Self::BODY_SIZE => true,
            Self::SHORT_BODY_SIZE => false,
            _ => return None,
        };
        let mut fields = Fields::new(body);
        let number = fields.take(16) as u16;
        let kind = fields.take(2) as u8;
        let permission = fields.take(5) as u8;
        let wildcards = Wildcards { plus: fields.flag(), minus: fields.flag(), star: fields.flag() };
        let zeros = fields.take(6);
        let set = fields.take(64) as u64;
        let subject = fields.take(128);
        let period =
            if has_period { Period::new(fields.take(32) as u32, fields.take(32) as u32)? } else { Period::ALWAYS };
        if number == 0 || zeros != 0 || set & !directory::known() != 0 {
            return None;
        }
        let subject = match kind {
            SUBJECT_UUID => Subject::Uuid(Uuid::new(subject)?),
            SUBJECT_ROLE => {
                let authority = u16::try_from(subject >> 16).ok()?;
                Subject::Role(Role::new(authority, subject as u16)?)
            }
            SUBJECT_CONNECTION => match subject {
                ANON_CLEAR => Subject::Connection(Connection::AnonClear),
                AUTH_CRYPT => Subject::Connection(Connection::AuthCrypt),
                _ => return None,
            },
            _ => return None,
        };
        Some(Access { number, subject, permission, wildcards, set, period })
    }

    fn bytes(&self) -> Vec<u8> {
        let (kind, subject) = match self.subject {
            Subject::Uuid(uuid) => (SUBJECT_UUID, uuid.get()),
            Subject::Role(Role { authority, number }) => {
                (SUBJECT_ROLE, u128::from(authority) << 16 | u128::from(number))
            }
            Subject::Connection(connection) => (SUBJECT_CONNECTION, connection as u128),
        };
        Packer::new()
            .put(self.number.into(), 16)
            .put(kind.into(), 2)
            .put(self.permission.into(), 5)
            .put(self.wildcards.plus.into(), 1)
            .put(self.wildcards.minus.into(), 1)
            .put(self.wildcards.star.into(), 1)
            .put(0, 6)
            .put(self.set.into(), 64)
            .put(subject, 128)
            .put(self.period.first.into(), 32)
            .put(self.period.last.into(), 32)
            .bytes()
    }

    fn number(&self) -> u16 {
        self.number
    }
}

/// Sound tables.
#[derive(Clone, Debug, PartialEq, Eq)]
pub struct Tables {
    pub state: State,
    /// Owned is 1 exactly when there is one.
    pub device_owner: Option<Uuid>,
    pub row_owners: [Option<Uuid>; 4],
    pub credentials: Vec<Credential>,
    pub accesses: Vec<Access>,
}

/// Why bytes are no sound tables.
#[derive(Clone, Copy, Debug, PartialEq, Eq, PartialOrd, Ord)]
pub enum Error {
    State,
    Owned,
    OwnedDisagrees,
    StateNeedsOwner,
    CountOverCapacity,
    Row,
    NumberTwice,
    UnusedRow,
}

impl Tables {
    /// Fresh tables of a build without default rows.
    pub fn fresh() -> Tables {
        Tables {
            state: State::Rfotm,
            device_owner: None,
            row_owners: [None; 4],
            credentials: Vec::new(),
            accesses: Vec::new(),
        }
    }

    pub fn owned(&self) -> bool {
        self.device_owner.is_some()
    }

    /// The roles have none.
    pub fn row_owner(&self, which: Security) -> Option<Uuid> {
        self.row_owners.get(which as usize).copied().flatten()
    }

    pub fn credential(&self, number: u16) -> Option<&Credential> {
        self.credentials.iter().find(|row| row.number == number)
    }

    /// Reads the bytes; an error says that the tables are not sound.
    pub fn read(stored: &TableBytes) -> Result<Tables, Error> {
        let state = State::from_number(stored[STATE]).ok_or(Error::State)?;
        let owned = match stored[OWNED] {
            0 => false,
            1 => true,
            _ => return Err(Error::Owned),
        };
        let device_owner = read_uuid(&stored[DEVICE_OWNER]);
        if owned != device_owner.is_some() {
            return Err(Error::OwnedDisagrees);
        }
        if state != State::Rfotm && !owned {
            return Err(Error::StateNeedsOwner);
        }
        let mut row_owners = [None; 4];
        for (owner, bytes) in row_owners.iter_mut().zip(stored[ROW_OWNERS].chunks_exact(16)) {
            *owner = read_uuid(bytes);
        }
        let credentials = read_rows(&stored[CREDENTIALS], stored[CREDENTIAL_COUNT])?;
        let accesses = read_rows(&stored[ACCESSES], stored[ACCESS_COUNT])?;
        Ok(Tables { state, device_owner, row_owners, credentials, accesses })
    }

    pub fn bytes(&self) -> TableBytes {
        let mut stored = [0; SIZE];
        stored[STATE] = self.state as u8;
        stored[OWNED] = self.owned().into();
        stored[CREDENTIAL_COUNT] = self.credentials.len() as u8;
        stored[ACCESS_COUNT] = self.accesses.len() as u8;
        stored[DEVICE_OWNER].copy_from_slice(&uuid_bytes(self.device_owner));
        for (place, &owner) in stored[ROW_OWNERS].chunks_exact_mut(16).zip(&self.row_owners) {
            place.copy_from_slice(&uuid_bytes(owner));
        }
        write_rows(&mut stored[CREDENTIALS], &self.credentials);
        write_rows(&mut stored[ACCESSES], &self.accesses);
        stored
    }
}

/// The bytes after the clear button, without default rows.
pub fn fresh_bytes() -> TableBytes {
    Tables::fresh().bytes()
}

pub fn read_uuid(bytes: &[u8]) -> Option<Uuid> {
    Uuid::new(u128::from_be_bytes(bytes.try_into().expect("sixteen bytes")))
}

pub fn uuid_bytes(uuid: Option<Uuid>) -> [u8; 16] {
    uuid.map_or(0, Uuid::get).to_be_bytes()
}

fn read_rows<R: Row>(bytes: &[u8], count: u8) -> Result<Vec<R>, Error> {
    let count = count as usize;
    if count > R::CAPACITY {
        return Err(Error::CountOverCapacity);
    }
    let (used, unused) = bytes.split_at(count * R::ROW_SIZE);
    let mut rows: Vec<R> = Vec::with_capacity(count);
    for row in used.chunks_exact(R::ROW_SIZE) {
        let row = R::from_stored(row).ok_or(Error::Row)?;
        if rows.iter().any(|earlier| earlier.number() == row.number()) {
            return Err(Error::NumberTwice);
        }
        rows.push(row);
    }
    // A test of all bytes is faster than one up to the first.
    if unused.iter().fold(0, |all, &byte| all | byte) != 0 {
        return Err(Error::UnusedRow);
    }
    Ok(rows)
}

fn write_rows<R: Row>(bytes: &mut [u8], rows: &[R]) {
    for (place, row) in bytes.chunks_exact_mut(R::ROW_SIZE).zip(rows) {
        place.copy_from_slice(&row.stored());
    }
}

#[cfg(test)]
#[path = "tests/tables.rs"]
mod tests;
