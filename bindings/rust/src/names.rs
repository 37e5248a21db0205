//! The numbers of records, tables and answers, with their names. Each type
//! holds any number, also a number that means nothing.

use core::error::Error;
use core::fmt;
use core::ops::BitOr;
use core::str::FromStr;

use crate::text::pad;

/// A number with names for some of its values.
macro_rules! named {
    ($(#[$doc:meta])* $type:ident { $($(#[$item:meta])* $constant:ident = $value:literal, $name:literal;)* }) => {
        $(#[$doc])*
        #[repr(transparent)]
        #[derive(Clone, Copy, Default, PartialEq, Eq, PartialOrd, Ord, Hash)]
        pub struct $type(pub u8);

        impl $type {
            $($(#[$item])* pub const $constant: $type = $type($value);)*

            /// All that have a name, by rising number.
            pub const ALL: &'static [$type] = &[$($type($value)),*];

            /// The number.
            pub const fn number(self) -> u8 {
                self.0
            }

            /// The name, where the number has one.
            pub fn name(self) -> Option<&'static str> {
                match self.0 {
                    $($value => Some($name),)*
                    _ => None,
                }
            }

            /// The one with this name; small and capital letters count alike.
            pub fn named(name: &str) -> Option<$type> {
                $type::ALL.iter().copied().find(|one| one.name().is_some_and(|own| own.eq_ignore_ascii_case(name)))
            }
        }

        impl fmt::Display for $type {
            fn fmt(&self, f: &mut fmt::Formatter) -> fmt::Result {
                match self.name() {
                    Some(name) => f.pad(name),
                    None => pad(f, format_args!("{} (unknown)", self.0)),
                }
            }
        }

        impl fmt::Debug for $type {
            fn fmt(&self, f: &mut fmt::Formatter) -> fmt::Result {
                match self.0 {
                    $($value => f.write_str(concat!(stringify!($type), "::", stringify!($constant))),)*
                    number => write!(f, concat!(stringify!($type), "({})"), number),
                }
            }
        }
    };
}

named! {
    /// The first three bits of a record.
    ///
    /// ```
    /// use tillerclover::Verb;
    /// assert_eq!(Verb::named("update"), Some(Verb::UPDATE));
    /// assert_eq!(Verb(6).to_string(), "6 (unknown)");
    /// ```
    Verb {
        /// Offered by no security resource.
        CREATE = 0, "CREATE";
        /// Reads.
        RETRIEVE = 1, "RETRIEVE";
        /// Writes.
        UPDATE = 2, "UPDATE";
        /// Only the security resources cred and acl2 offer it.
        DELETE = 3, "DELETE";
        /// Needs the permission of RETRIEVE.
        OBSERVE = 4, "OBSERVE";
    }
}

named! {
    /// The fourth bit of a record.
    Connection {
        /// In clear; the sender is not known.
        ANON_CLEAR = 0, "anon-clear";
        /// Encrypted; the record names the sender's credential.
        AUTH_CRYPT = 1, "auth-crypt";
    }
}

named! {
    /// A resource by its six bits.
    ///
    /// ```
    /// use tillerclover::Resource;
    /// assert_eq!(Resource::named("/tare"), Some(Resource::TARE));
    /// assert_eq!(Resource::YARD.to_string(), "/yard");
    /// assert!(Resource::ACL2.is_security() && !Resource::WEIGHT.is_security());
    /// assert_eq!(Resource(5).name(), None);
    /// ```
    Resource {
        /// The device owner.
        DOXM = 0, "/oic/sec/doxm";
        /// The device state.
        PSTAT = 1, "/oic/sec/pstat";
        /// The credential rows.
        CRED = 2, "/oic/sec/cred";
        /// The access rows.
        ACL2 = 3, "/oic/sec/acl2";
        /// The roles that a partner asserts; it has no row owner.
        ROLES = 4, "/oic/sec/roles";
        /// The weight.
        WEIGHT = 8, "/weight";
        /// The tare.
        TARE = 9, "/tare";
        /// The zero.
        ZERO = 10, "/zero";
        /// The ticket printer.
        TICKET = 11, "/ticket";
        /// The lamp.
        LAMP = 12, "/lamp";
        /// The calibration.
        CALIB = 13, "/calib";
        /// The display.
        DISPLAY = 14, "/display";
        /// The whole yard, with links to 8 to 14.
        YARD = 16, "/yard";
    }
}

impl Resource {
    /// The security resources with a row owner, in the order in which the tables keep these.
    pub const WITH_ROW_OWNER: [Resource; 4] = [Resource::DOXM, Resource::PSTAT, Resource::CRED, Resource::ACL2];

    /// Whether its name is that of a security resource.
    pub fn is_security(self) -> bool {
        self.name().is_some_and(|name| name.starts_with("/oic/sec/"))
    }
}

named! {
    /// A device state, or a target that is asked for.
    State {
        /// A target only: it gives the fresh tables.
        RESET = 0, "RESET";
        /// Ready for owner transfer.
        RFOTM = 1, "RFOTM";
        /// Ready for provisioning.
        RFPRO = 2, "RFPRO";
        /// Ready for normal operation.
        RFNOP = 3, "RFNOP";
        /// Soft reset.
        SRESET = 4, "SRESET";
    }
}

named! {
    /// What the library says of a record, a list or a text.
    ///
    /// ```
    /// use tillerclover::Answer;
    /// assert_eq!(Answer::NO_ENDPOINT.number(), 16);
    /// assert_eq!(Answer(8), Answer::NOT_PERMITTED);
    /// assert!(Answer::PERMITTED.is_permitted());
    /// assert_eq!(format!("{:?} {:?}", Answer(8), Answer(99)), "Answer::NOT_PERMITTED Answer(99)");
    /// ```
    #[must_use = "a decision that nobody looks at decides nothing"]
    Answer {
        /// The record may pass, the list is good, the text is written.
        PERMITTED = 0, "permitted";
        /// The tables are not sound, or the memory of the queue is not.
        NOT_SOUND = 1, "tables not sound";
        /// Under 4 or over 256 bytes.
        BAD_LENGTH = 2, "record too short or too long";
        /// Verb 5 to 7.
        NO_VERB = 3, "no such verb";
        /// A zero bit of the header is set.
        ZERO_BIT_SET = 4, "a zero bit of the header is set";
        /// Connection and credential number disagree.
        MISMATCH = 5, "connection and credential number disagree";
        /// No resource has the number.
        UNKNOWN_RESOURCE = 6, "unknown resource";
        /// No credential row has the number.
        NO_CREDENTIAL = 7, "no such credential";
        /// The effective permission lacks the verb's bit.
        NOT_PERMITTED = 8, "not permitted";
        /// This security resource does not offer the verb.
        NOT_OFFERED = 9, "verb not offered";
        /// The body has another length or a forbidden value.
        MALFORMED = 10, "body malformed";
        /// Not in this device state.
        WRONG_STATE = 11, "not in this device state";
        /// The target state is not on the list of moves.
        BAD_TARGET = 12, "target state not on the list";
        /// No row has the number or the subject to delete.
        MISSING = 13, "no such row";
        /// A new row, and its table is full.
        FULL = 14, "table full";
        /// The reply is longer than the buffer.
        NO_ROOM = 15, "buffer too short for the reply";
        /// The resource has no endpoint for the connection.
        NO_ENDPOINT = 16, "no endpoint for the connection";
        /// No text: the tables are not sound.
        LIST_NOT_SOUND = 17, "no text: tables not sound";
        /// No text: the buffer is too short.
        LIST_NO_ROOM = 18, "no text: buffer too short";
        /// The list has another length than whole rows, or too many rows.
        TEST_BAD_SIZE = 19, "list of a bad size";
        /// A row that no record could store, or a number twice.
        TEST_NOT_STORABLE = 20, "row not storable, or its number repeated";
        /// A row gives a role or a connection too much on a security resource.
        TEST_EXCESSIVE = 21, "row gives too much";
        /// The sender's row holds two other roles in force.
        ROLES_FULL = 22, "both places for asserted roles are taken";
        /// No rows: the file is no list of an older terminal.
        CONVERT_BAD_FILE = 23, "no list of an older terminal";
        /// No rows: they would be too many.
        CONVERT_TOO_MANY = 24, "too many rows";
        /// No rows: the buffer is too short.
        CONVERT_NO_ROOM = 25, "buffer too short for the rows";
        /// Not kept: a record of this sender waits already.
        OCCUPIED = 26, "another record of this sender waits";
        /// Nothing taken: no record waits.
        NOTHING_WAITING = 27, "nothing waits";
    }
}

/// A refusal is an error to whoever needs a permit.
impl Error for Answer {}

impl Answer {
    /// The answer to a hand-in: the record is kept, and nobody has judged it yet. It is the number of [`Answer::PERMITTED`].
    pub const KEPT: Answer = Answer(0);

    /// The checks of a record in the order in which they are made; the first that applies is the answer.
    pub const CHECKS: [Answer; 17] = [
        Answer::NOT_SOUND,
        Answer::BAD_LENGTH,
        Answer::NO_VERB,
        Answer::ZERO_BIT_SET,
        Answer::MISMATCH,
        Answer::UNKNOWN_RESOURCE,
        Answer::NO_CREDENTIAL,
        Answer::NO_ENDPOINT,
        Answer::NOT_PERMITTED,
        Answer::NOT_OFFERED,
        Answer::MALFORMED,
        Answer::WRONG_STATE,
        Answer::BAD_TARGET,
        Answer::MISSING,
        Answer::FULL,
        Answer::ROLES_FULL,
        Answer::NO_ROOM,
    ];

    /// Whether it is 0. For a hand-in ask [`Answer::is_kept`] instead.
    pub fn is_permitted(self) -> bool {
        self == Answer::PERMITTED
    }

    /// Whether it is 0, of a hand-in: the record waits. Whether it may pass is decided at its take.
    pub fn is_kept(self) -> bool {
        self == Answer::KEPT
    }
}

/// A union of numbers whose bits have letters.
macro_rules! letters {
    ($type:ident, $letters:literal) => {
        impl $type {
            /// The letters, the first for the bit that is written first.
            pub const LETTERS: &'static str = $letters;

            /// The number.
            pub const fn number(self) -> u8 {
                self.0
            }

            /// Whether all bits of the other are in it.
            pub fn contains(self, other: $type) -> bool {
                self.0 & other.0 == other.0
            }

            /// Whether it has none.
            pub fn is_empty(self) -> bool {
                self.0 == 0
            }
        }

        impl BitOr for $type {
            type Output = $type;

            fn bitor(self, other: $type) -> $type {
                $type(self.0 | other.0)
            }
        }
    };
}

/// A union of the five permission bits.
///
/// ```
/// use tillerclover::Permission;
/// let given = Permission::RETRIEVE | Permission::UPDATE;
/// assert_eq!((given.number(), given.to_string().as_str()), (6, "-RU--"));
/// assert_eq!("ru".parse(), Ok(given));
/// assert!(Permission::ALL.contains(given));
/// ```
#[repr(transparent)]
#[derive(Clone, Copy, Debug, Default, PartialEq, Eq, Hash)]
pub struct Permission(pub u8);

letters!(Permission, "CRUDN");

impl Permission {
    /// No bit.
    pub const NONE: Permission = Permission(0);
    /// C.
    pub const CREATE: Permission = Permission(1);
    /// R, which OBSERVE needs too.
    pub const RETRIEVE: Permission = Permission(2);
    /// U.
    pub const UPDATE: Permission = Permission(4);
    /// D.
    pub const DELETE: Permission = Permission(8);
    /// N, which no verb needs.
    pub const NOTIFY: Permission = Permission(16);
    /// All five.
    pub const ALL: Permission = Permission(31);

    /// Its single bits, C first.
    pub fn bits(self) -> impl Iterator<Item = Permission> {
        (0..5).map(|bit| Permission(1 << bit)).filter(move |&bit| self.contains(bit))
    }

    /// The bits of either, but not of the other.
    pub fn without(self, other: Permission) -> Permission {
        Permission(self.0 & !other.0)
    }
}

/// A letter that is none of a permission's.
#[derive(Clone, Copy, Debug, PartialEq, Eq)]
pub struct PermissionError(pub char);

impl fmt::Display for PermissionError {
    fn fmt(&self, f: &mut fmt::Formatter) -> fmt::Result {
        write!(f, "'{}' is none of the letters {}", self.0, Permission::LETTERS)
    }
}

impl Error for PermissionError {}

impl FromStr for Permission {
    type Err = PermissionError;

    /// From letters in any order.
    fn from_str(text: &str) -> Result<Permission, PermissionError> {
        text.chars().filter(|&letter| letter != '-').try_fold(Permission::NONE, |union, letter| {
            let place = Permission::LETTERS.find(letter.to_ascii_uppercase()).ok_or(PermissionError(letter))?;
            Ok(union | Permission(1 << place))
        })
    }
}

impl fmt::Display for Permission {
    fn fmt(&self, f: &mut fmt::Formatter) -> fmt::Result {
        let letters = Permission::LETTERS.as_bytes();
        let [c, r, u, d, n] =
            [0, 1, 2, 3, 4].map(|place| if self.0 >> place & 1 == 1 { char::from(letters[place]) } else { '-' });
        pad(f, format_args!("{c}{r}{u}{d}{n}"))
    }
}

/// A union of the three wildcards.
#[repr(transparent)]
#[derive(Clone, Copy, Debug, Default, PartialEq, Eq, Hash)]
pub struct Wildcards(pub u8);

letters!(Wildcards, "+-*");

impl Wildcards {
    /// No wildcard.
    pub const NONE: Wildcards = Wildcards(0);
    /// "+", the discoverable resources with a secure endpoint.
    pub const SECURE: Wildcards = Wildcards(4);
    /// "-", the discoverable resources with an unsecure endpoint.
    pub const UNSECURE: Wildcards = Wildcards(2);
    /// "*", all that are not configuration.
    pub const ALL: Wildcards = Wildcards(1);

    /// The one that is written so.
    pub fn written(sign: &str) -> Option<Wildcards> {
        match sign {
            "+" => Some(Wildcards::SECURE),
            "-" => Some(Wildcards::UNSECURE),
            "*" => Some(Wildcards::ALL),
            _ => None,
        }
    }
}

impl fmt::Display for Wildcards {
    fn fmt(&self, f: &mut fmt::Formatter) -> fmt::Result {
        let signs = [(Wildcards::SECURE, "+"), (Wildcards::UNSECURE, "-"), (Wildcards::ALL, "*")];
        let [secure, unsecure, all] = signs.map(|(one, sign)| if self.contains(one) { sign } else { "" });
        pad(f, format_args!("{secure}{unsecure}{all}"))
    }
}

/// A set of resources; the top bit represents resource 0.
///
/// ```
/// use tillerclover::{Resource, Set};
/// let set = Set::of(&[Resource::WEIGHT, Resource::YARD]);
/// assert_eq!(set.0, 0x0080_8000_0000_0000);
/// assert!(set.contains(Resource::YARD) && !set.contains(Resource::TARE));
/// assert_eq!(set.resources().collect::<Vec<_>>(), [Resource::WEIGHT, Resource::YARD]);
/// ```
#[repr(transparent)]
#[derive(Clone, Copy, Debug, Default, PartialEq, Eq, Hash)]
pub struct Set(pub u64);

impl Set {
    /// No resource.
    pub const EMPTY: Set = Set(0);

    /// These resources.
    pub fn of(resources: &[Resource]) -> Set {
        Set(resources.iter().fold(0, |set, resource| set | 1 << (63 - (resource.0 & 63))))
    }

    /// Whether the resource is in it.
    pub fn contains(self, resource: Resource) -> bool {
        resource.0 < 64 && self.0 >> (63 - resource.0) & 1 == 1
    }

    /// All that are in it, unknown ones too, by rising number.
    pub fn resources(self) -> impl Iterator<Item = Resource> {
        (0..64).map(Resource).filter(move |&resource| self.contains(resource))
    }
}
