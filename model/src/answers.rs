//! The answers by name, as the numbers that callers see. The names are those of the
//! C header.

use crate::rules::Refusal;
use crate::{office, older, provisioning};

pub const PERMITTED: u8 = 0;
pub const NOT_SOUND: u8 = Refusal::NotSound as u8;
pub const BAD_LENGTH: u8 = Refusal::BadLength as u8;
pub const NO_VERB: u8 = Refusal::NoVerb as u8;
pub const ZERO_BIT_SET: u8 = Refusal::ZeroBitSet as u8;
pub const MISMATCH: u8 = Refusal::Mismatch as u8;
pub const UNKNOWN_RESOURCE: u8 = Refusal::UnknownResource as u8;
pub const NO_CREDENTIAL: u8 = Refusal::NoCredential as u8;
pub const NOT_PERMITTED: u8 = Refusal::NotPermitted as u8;
pub const NOT_OFFERED: u8 = Refusal::NotOffered as u8;
pub const MALFORMED: u8 = Refusal::Malformed as u8;
pub const WRONG_STATE: u8 = Refusal::WrongState as u8;
pub const BAD_TARGET: u8 = Refusal::BadTarget as u8;
pub const MISSING: u8 = Refusal::Missing as u8;
pub const FULL: u8 = Refusal::Full as u8;
pub const NO_ROOM: u8 = Refusal::NoRoom as u8;
pub const NO_ENDPOINT: u8 = Refusal::NoEndpoint as u8;
pub const ROLES_FULL: u8 = Refusal::RolesFull as u8;
pub const OCCUPIED: u8 = Refusal::Occupied as u8;
pub const NOTHING_WAITING: u8 = Refusal::NothingWaiting as u8;

pub const LIST_NOT_SOUND: u8 = office::Refusal::NotSound as u8;
pub const LIST_NO_ROOM: u8 = office::Refusal::NoRoom as u8;

pub const TEST_BAD_SIZE: u8 = provisioning::Refusal::BadSize as u8;
pub const TEST_NOT_STORABLE: u8 = provisioning::Refusal::NotStorable as u8;
pub const TEST_EXCESSIVE: u8 = provisioning::Refusal::Excessive as u8;

pub const CONVERT_BAD_FILE: u8 = older::Refusal::BadFile as u8;
pub const CONVERT_TOO_MANY: u8 = older::Refusal::TooMany as u8;
pub const CONVERT_NO_ROOM: u8 = older::Refusal::NoRoom as u8;

/// The answers that a record, a hand-in or a take may get.
pub const OF_RECORDS: [u8; 20] = [
    PERMITTED,
    NOT_SOUND,
    BAD_LENGTH,
    NO_VERB,
    ZERO_BIT_SET,
    MISMATCH,
    UNKNOWN_RESOURCE,
    NO_CREDENTIAL,
    NOT_PERMITTED,
    NOT_OFFERED,
    MALFORMED,
    WRONG_STATE,
    BAD_TARGET,
    MISSING,
    FULL,
    NO_ROOM,
    NO_ENDPOINT,
    ROLES_FULL,
    OCCUPIED,
    NOTHING_WAITING,
];
