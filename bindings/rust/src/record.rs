//! Records, built and read by names: the header's four bytes and the bodies of
//! the security resources.

#[cfg(feature = "alloc")]
use alloc::vec::Vec;

use crate::names::{Connection, Resource, State, Verb};
#[cfg(feature = "alloc")]
use crate::rows::{Ace, Asserted, Cred};
use crate::uuid::Uuid;

/// The number of a sender without a credential.
pub const ANYONE: u16 = 0;

/// A record of a partner by its credential number, or of [`ANYONE`] in clear.
///
/// ```
/// use tillerclover::{record, Resource, Verb, ANYONE};
/// assert_eq!(record(Verb::RETRIEVE, Resource::WEIGHT, ANYONE, &[]), [0x22, 0x00, 0x00, 0x00]);
/// assert_eq!(record(Verb::UPDATE, Resource::TARE, 5, &[1]), [0x52, 0x40, 0x00, 0x05, 0x01]);
/// ```
#[cfg(feature = "alloc")]
pub fn record(verb: Verb, resource: Resource, sender: u16, body: &[u8]) -> Vec<u8> {
    [&Header::new(verb, resource, sender).to_bytes()[..], body].concat()
}

/// The same in a buffer; none where it is too short.
///
/// ```
/// use tillerclover::{record_in, Resource, Verb};
/// let mut buffer = [0; 256];
/// assert_eq!(record_in(&mut buffer, Verb::UPDATE, Resource::TARE, 5, &[1]), Some(&[0x52, 0x40, 0x00, 0x05, 0x01][..]));
/// assert_eq!(record_in(&mut [0; 4], Verb::UPDATE, Resource::TARE, 5, &[1]), None);
/// ```
pub fn record_in<'a>(
    buffer: &'a mut [u8],
    verb: Verb,
    resource: Resource,
    sender: u16,
    body: &[u8],
) -> Option<&'a [u8]> {
    let record = buffer.get_mut(..Header::LENGTH + body.len())?;
    let (header, rest) = record.split_at_mut(Header::LENGTH);
    header.copy_from_slice(&Header::new(verb, resource, sender).to_bytes());
    rest.copy_from_slice(body);
    Some(record)
}

/// The first four bytes of a record.
///
/// ```
/// use tillerclover::{Connection, Header, Resource, Verb};
/// let header = Header::read(&[0x52, 0x40, 0x00, 0x05, 0x01]).unwrap();
/// assert_eq!((header.verb, header.resource, header.sender), (Verb::UPDATE, Resource::TARE, 5));
/// assert_eq!(header.connection, Connection::AUTH_CRYPT);
/// assert_eq!(Header::read(&[0x52, 0x40, 0x00]), None);
/// ```
#[derive(Clone, Copy, Debug, PartialEq, Eq)]
pub struct Header {
    /// What is to be done.
    pub verb: Verb,
    /// How the record came.
    pub connection: Connection,
    /// With what.
    pub resource: Resource,
    /// Six zero bits.
    pub zeros: u8,
    /// The sender's credential number, 0 over anon-clear.
    pub sender: u16,
}

impl Header {
    /// The length of the header.
    pub const LENGTH: usize = 4;

    /// The record of a partner by its credential number, or of [`ANYONE`] in clear.
    pub fn new(verb: Verb, resource: Resource, sender: u16) -> Header {
        let connection = if sender == ANYONE { Connection::ANON_CLEAR } else { Connection::AUTH_CRYPT };
        Header { verb, connection, resource, zeros: 0, sender }
    }

    /// Reads the header of a record; none where the record is shorter.
    pub fn read(record: &[u8]) -> Option<Header> {
        let &[first, second, third, fourth, ..] = record else { return None };
        let bits = u16::from_be_bytes([first, second]);
        Some(Header {
            verb: Verb(first >> 5),
            connection: Connection(first >> 4 & 1),
            resource: Resource((bits >> 6) as u8 & 63),
            zeros: second & 63,
            sender: u16::from_be_bytes([third, fourth]),
        })
    }

    /// The header's bytes.
    pub fn to_bytes(self) -> [u8; Header::LENGTH] {
        let bits = u16::from(self.verb.0 & 7) << 13
            | u16::from(self.connection.0 & 1) << 12
            | u16::from(self.resource.0 & 63) << 6
            | u16::from(self.zeros & 63);
        let ([first, second], [third, fourth]) = (bits.to_be_bytes(), self.sender.to_be_bytes());
        [first, second, third, fourth]
    }
}

/// The body that makes this UUID the device owner; nil gives the terminal up.
pub fn doxm_body(owner: Uuid) -> [u8; 17] {
    let mut body = [0; 17];
    body[0] = u8::from(!owner.is_nil()) << 7;
    body[1..].copy_from_slice(&owner.0);
    body
}

/// The body that asks for this device state.
pub fn pstat_body(target: State) -> [u8; 1] {
    [target.0 << 5]
}

/// What a body says, by names.
///
/// ```
/// use tillerclover::{Body, Resource, State, Verb};
/// assert_eq!(Body::read(Verb::UPDATE, Resource::PSTAT, &[0x60]), Body::Target(State::RFNOP));
/// assert_eq!(Body::read(Verb::UPDATE, Resource::PSTAT, &[0x61]), Body::Bytes(vec![0x61]));
/// assert_eq!(Body::read(Verb::DELETE, Resource::CRED, &[0, 5]), Body::Number(5));
/// ```
#[cfg(feature = "alloc")]
#[derive(Clone, Debug, PartialEq, Eq)]
pub enum Body {
    /// No bytes.
    Empty,
    /// A new device owner.
    Owner(Uuid),
    /// A new owner of the resource's rows.
    RowOwner(Uuid),
    /// A device state to go to.
    Target(State),
    /// A credential row to store.
    Cred(Cred),
    /// An access row to store.
    Ace(Ace),
    /// A role to assert.
    Role(Asserted),
    /// The number of a row to delete.
    Number(u16),
    /// The subject whose credential rows are to be deleted.
    Subject(Uuid),
    /// Anything else.
    Bytes(Vec<u8>),
}

#[cfg(feature = "alloc")]
impl Body {
    /// Reads the body of a record. What is not written as a body would be stays bytes.
    pub fn read(verb: Verb, resource: Resource, body: &[u8]) -> Body {
        let named = match verb {
            _ if body.is_empty() => Some(Body::Empty),
            Verb::UPDATE => Body::update(resource, body),
            Verb::DELETE => Body::delete(resource, body),
            _ => None,
        };
        named.filter(|named| named.says(body)).unwrap_or_else(|| Body::Bytes(body.to_vec()))
    }

    fn update(resource: Resource, body: &[u8]) -> Option<Body> {
        match (resource, body) {
            (Resource::DOXM, [_, owner @ ..]) if owner.len() == 16 => uuid(owner).map(Body::Owner),
            (Resource::PSTAT, [target]) => Some(Body::Target(State(target >> 5))),
            (Resource::ROLES, _) => body.try_into().ok().map(|body| Body::Role(Asserted::from_bytes(body))),
            _ if Resource::WITH_ROW_OWNER.contains(&resource) && body.len() == 16 => uuid(body).map(Body::RowOwner),
            (Resource::CRED, _) => Cred::from_body(body).map(Body::Cred),
            (Resource::ACL2, _) => Ace::from_body(body).map(Body::Ace),
            _ => None,
        }
    }

    fn delete(resource: Resource, body: &[u8]) -> Option<Body> {
        match (resource, body) {
            (Resource::CRED | Resource::ACL2, &[high, low]) => Some(Body::Number(u16::from_be_bytes([high, low]))),
            (Resource::CRED, _) => uuid(body).map(Body::Subject),
            _ => None,
        }
    }

    /// Whether these are its bytes, in the longer or the shorter form.
    fn says(&self, body: &[u8]) -> bool {
        let bytes = self.to_bytes();
        match self {
            Body::Cred(_) if body.len() == Cred::SHORT => [&bytes[..20], &bytes[22..]].concat() == body,
            Body::Ace(_) if body.len() == Ace::SHORT => bytes[..Ace::SHORT] == *body,
            _ => bytes == body,
        }
    }

    /// Its bytes, in the longer form where there are two.
    pub fn to_bytes(&self) -> Vec<u8> {
        match self {
            Body::Empty => Vec::new(),
            Body::Owner(owner) => doxm_body(*owner).to_vec(),
            Body::RowOwner(uuid) | Body::Subject(uuid) => uuid.0.to_vec(),
            Body::Target(target) => pstat_body(*target).to_vec(),
            Body::Cred(row) => row.body().to_vec(),
            Body::Ace(row) => row.body().to_vec(),
            Body::Role(role) => role.to_bytes().to_vec(),
            Body::Number(number) => number.to_be_bytes().to_vec(),
            Body::Bytes(bytes) => bytes.clone(),
        }
    }
}

#[cfg(feature = "alloc")]
fn uuid(bytes: &[u8]) -> Option<Uuid> {
    bytes.try_into().ok().map(Uuid)
}
