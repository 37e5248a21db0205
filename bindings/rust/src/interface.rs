//! The functions of include/tillerclover.h, one by one, over slices: tables and
//! the queue are changed in place. Only `store` and `yards` call the library too.

use core::mem::offset_of;

use crate::names::{Answer, Permission, Resource, Set};
use crate::record::Header;
use crate::tables::{Tables, Waiting};

/// The longest record that is not refused for its length.
pub const RECORD_MAX: usize = 256;
/// A buffer of this length fits every reply.
pub const REPLY_MAX: usize = 1168;
/// A buffer of this length fits every text of the access list.
pub const TEXT_MAX: usize = 13069;
/// A buffer of this length fits the rows of every conversion.
pub const CONVERTED_MAX: usize = 1152;

/// The build's default rows, two lists of at most two rows each: bodies of 23
/// bytes, and of 36. A list that is bad counts as none.
#[derive(Clone, Copy, Debug, Default, PartialEq, Eq)]
pub struct Defaults<'a> {
    /// Credential rows.
    pub creds: &'a [u8],
    /// Access rows.
    pub aces: &'a [u8],
}

/// The table that places to store are in.
#[derive(Clone, Copy, Debug, PartialEq, Eq)]
pub enum Table {
    /// Credential rows.
    Creds,
    /// Access rows.
    Aces,
}

/// What becomes of a record. All fields but the answer are 0, or none, for a refusal.
#[derive(Clone, Copy, Debug, PartialEq, Eq)]
pub struct Outcome {
    /// Permitted, or the first refusal that applies.
    pub answer: Answer,
    /// The effective permission before the record changed the tables.
    pub permission: Permission,
    /// Where the payload begins in the record: 4 where it has a byte.
    pub payload_offset: usize,
    /// How many bytes the payload has.
    pub payload_length: usize,
    /// How many bytes of the caller's buffer are the reply.
    pub reply_length: usize,
    /// The table that a DELETE leaves places to store in.
    pub store_table: Option<Table>,
    /// The first place to store after a DELETE.
    pub store_first: usize,
    /// How many places there are to store.
    pub store_count: usize,
    /// The links of /yard that the sender may use.
    pub link_set: Set,
    /// How many links these are.
    pub link_count: usize,
}

/// What becomes of a take: a record, and its outcome.
#[derive(Clone, Copy, Debug)]
pub struct Taken {
    /// The outcome; its payload is a part of `record`.
    pub outcome: Outcome,
    /// How many bytes the record has; 0 where none was taken.
    pub record_length: usize,
    /// The record, zeros after it.
    pub record: [u8; RECORD_MAX],
}

/// What is reported of a text.
#[derive(Clone, Copy, Debug, PartialEq, Eq)]
pub struct Listed {
    /// Permitted, not sound or no room.
    pub answer: Answer,
    /// How many bytes of the caller's buffer are the text.
    pub length: usize,
}

/// What is reported of a list of access rows.
#[derive(Clone, Copy, Debug, PartialEq, Eq)]
pub struct Tested {
    /// Permitted, a bad size, a row not storable, or a row that gives too much.
    pub answer: Answer,
    /// The first bad row, counted from 1, or 0.
    pub row: usize,
}

/// What is reported of a conversion.
#[derive(Clone, Copy, Debug, PartialEq, Eq)]
pub struct Converted {
    /// Permitted, a bad file, too many rows or no room.
    pub answer: Answer,
    /// How many bytes of the caller's buffer are the rows.
    pub length: usize,
}

const _: () =
    assert!(size_of::<usize>() <= size_of::<u64>() && align_of::<Tables>() == 1 && align_of::<Waiting>() == 1);
const _: () = assert!(size_of::<Tables>() == 2172 && size_of::<Waiting>() == 6504);
const _: () = assert!(offset_of!(Tables, state) == 0 && offset_of!(Tables, owned) == 1);
const _: () = assert!(offset_of!(Tables, ncreds) == 2 && offset_of!(Tables, naces) == 3);
const _: () = assert!(offset_of!(Tables, devowner) == 4 && offset_of!(Tables, rowners) == 20);
const _: () = assert!(offset_of!(Tables, creds) == 84 && offset_of!(Tables, aces) == 1020);

/// The numbers that the library says of a record.
#[doc(hidden)]
pub type Said = [u64; 9];

crate::changing! { "tillerclover_fresh_at", fresh_at() }
crate::changing! { "tillerclover_clear_at", clear_at() }
extern "C" {
    fn tillerclover_is_sound_at(
        counts: *const u8,
        devowner: *const u8,
        rowners: *const u8,
        creds: *const u8,
        aces: *const u8,
        queue: *const u8,
    ) -> u64;
}

// The library takes any bytes, keeps no pointer and reads and writes within only the lengths. Each pointer and length
// below is that of a living slice or reference, and what is written to is borrowed for only the call.

/// Where the five parts of tables begin, for a call: the first is state, owned and the two counts.
const PARTS: [usize; 5] =
    [0, offset_of!(Tables, devowner), offset_of!(Tables, rowners), offset_of!(Tables, creds), offset_of!(Tables, aces)];

/// These parts of tables that the call reads.
#[inline(always)]
#[doc(hidden)]
pub fn parts(tables: &Tables) -> [*const u8; 5] {
    let all: *const Tables = tables;
    PARTS.map(|part| all.cast::<u8>().wrapping_add(part))
}

/// The same of tables that the call changes.
#[inline(always)]
#[doc(hidden)]
pub fn parts_mut(tables: &mut Tables) -> [*mut u8; 5] {
    let all: *mut Tables = tables;
    PARTS.map(|part| all.cast::<u8>().wrapping_add(part))
}

impl Outcome {
    /// What was reported of this record. Where there are places to store, its resource names their table.
    #[inline(always)]
    #[doc(hidden)]
    pub fn of(said: &Said, record: &[u8]) -> Outcome {
        let &[answer, permission, offset, length, reply_length, store_first, store_count, links, link_count] = said;
        let table = || match Header::read(record)?.resource {
            Resource::CRED => Some(Table::Creds),
            _ => Some(Table::Aces),
        };
        Outcome {
            answer: Answer(answer as u8),
            permission: Permission(permission as u8),
            payload_offset: offset as usize,
            payload_length: length as usize,
            reply_length: reply_length as usize,
            store_table: if store_count == 0 { None } else { table() },
            store_first: store_first as usize,
            store_count: store_count as usize,
            link_set: Set(links),
            link_count: link_count as usize,
        }
    }
}

/// A new terminal, whatever tables and waiting records held.
///
/// ```
/// use tillerclover::{interface, Defaults, State, Tables, Waiting};
/// let (mut tables, mut waiting) = (Tables::default(), Waiting::FRESH);
/// interface::fresh(&mut tables, &mut waiting, Defaults::default());
/// assert_eq!((tables.state(), tables.creds().len()), (State::RFOTM, 0));
/// ```
#[inline]
pub fn fresh(tables: &mut Tables, waiting: &mut Waiting, defaults: Defaults) {
    unsafe { fresh_at(tables, waiting, defaults) }
}

/// The clear button: a new terminal, whatever was there.
#[inline]
pub fn clear(tables: &mut Tables, waiting: &mut Waiting, defaults: Defaults) {
    unsafe { clear_at(tables, waiting, defaults) }
}

/// Whether tables and waiting records are sound. Where they are not, every record is refused until a clear.
///
/// ```
/// use tillerclover::{interface, Tables, Waiting};
/// assert!(!interface::is_sound(&Tables::default(), &Waiting::FRESH));
/// ```
#[inline]
#[must_use]
pub fn is_sound(tables: &Tables, waiting: &Waiting) -> bool {
    let [t0, t1, t2, t3, t4] = parts(tables);
    unsafe { tillerclover_is_sound_at(t0, t1, t2, t3, t4, waiting.bytes.as_ptr()) != 0 }
}

// What a record, a text and a list come to.
crate::calls!("tillerclover");
