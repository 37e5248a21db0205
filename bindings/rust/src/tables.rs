//! The tables and the memory of the queue, as bytes and by names. Any content
//! is allowed; whether it is sound is the library's to say.

#[cfg(feature = "alloc")]
use alloc::vec::Vec;

use crate::names::{Resource, State};
use crate::rows::{Ace, Cred};
use crate::uuid::Uuid;

/// What a record is judged on: 2,172 bytes.
///
/// ```
/// use tillerclover::{Ace, State, Tables, Terminal};
/// let mut tables = Terminal::new().tables;
/// assert_eq!(tables.state(), State::RFOTM);
/// tables.set_aces(&[Ace { number: 1, ..Ace::default() }]);
/// assert_eq!(tables.aces()[0].number, 1);
/// assert_eq!(Tables::from_bytes(&tables.to_bytes()), tables);
/// ```
#[repr(C)]
#[derive(Clone, Copy, Debug, PartialEq, Eq)]
pub struct Tables {
    /// The device state.
    pub state: u8,
    /// 1 exactly when there is a device owner.
    pub owned: u8,
    /// Credential rows held.
    pub ncreds: u8,
    /// Access rows held.
    pub naces: u8,
    /// The device owner, or nil.
    pub devowner: [u8; 16],
    /// The row owners of doxm, pstat, cred and acl2, or nil.
    pub rowners: [u8; 64],
    /// Credential rows in order of arrival, zeros after the last.
    pub creds: [u8; Cred::CAPACITY * Cred::ROW],
    /// Access rows in order of arrival, zeros after the last.
    pub aces: [u8; Ace::CAPACITY * Ace::LENGTH],
}

/// All bytes are 0: no tables yet, and not sound. [`crate::interface::fresh`] makes them those of a new terminal.
impl Default for Tables {
    fn default() -> Tables {
        Tables::from_bytes(&[0; Tables::SIZE])
    }
}

impl Tables {
    /// How many bytes they have.
    pub const SIZE: usize = size_of::<Tables>();

    /// The tables with these bytes.
    pub fn from_bytes(bytes: &[u8; Tables::SIZE]) -> Tables {
        let mut tables = Tables {
            state: bytes[0],
            owned: bytes[1],
            ncreds: bytes[2],
            naces: bytes[3],
            devowner: [0; 16],
            rowners: [0; 64],
            creds: [0; Cred::CAPACITY * Cred::ROW],
            aces: [0; Ace::CAPACITY * Ace::LENGTH],
        };
        tables.devowner.copy_from_slice(&bytes[4..20]);
        tables.rowners.copy_from_slice(&bytes[20..84]);
        tables.creds.copy_from_slice(&bytes[84..1020]);
        tables.aces.copy_from_slice(&bytes[1020..]);
        tables
    }

    /// Their bytes.
    pub fn to_bytes(&self) -> [u8; Tables::SIZE] {
        let mut bytes = [0; Tables::SIZE];
        bytes[..4].copy_from_slice(&[self.state, self.owned, self.ncreds, self.naces]);
        bytes[4..20].copy_from_slice(&self.devowner);
        bytes[20..84].copy_from_slice(&self.rowners);
        bytes[84..1020].copy_from_slice(&self.creds);
        bytes[1020..].copy_from_slice(&self.aces);
        bytes
    }

    /// The device state.
    pub fn state(&self) -> State {
        State(self.state)
    }

    /// The device owner, or nil.
    pub fn owner(&self) -> Uuid {
        Uuid(self.devowner)
    }

    /// Has this device owner, nil for none.
    pub fn set_owner(&mut self, owner: Uuid) {
        self.owned = u8::from(!owner.is_nil());
        self.devowner = owner.0;
    }

    /// The owner of a resource's rows, or nil; none where the resource has no row owner.
    pub fn row_owner(&self, resource: Resource) -> Option<Uuid> {
        let place = Resource::WITH_ROW_OWNER.iter().position(|&one| one == resource)?;
        self.rowners.chunks_exact(16).nth(place).map(|bytes| Uuid(bytes.try_into().expect("sixteen bytes")))
    }

    /// The credential rows held; no more than there is room for.
    #[cfg(feature = "alloc")]
    pub fn creds(&self) -> Vec<Cred> {
        self.each_cred().take(self.ncreds.into()).collect()
    }

    /// All places for credential rows, the unused ones too.
    #[cfg(feature = "alloc")]
    pub fn cred_places(&self) -> Vec<Cred> {
        self.each_cred().collect()
    }

    /// The same one by one.
    pub fn each_cred(&self) -> impl Iterator<Item = Cred> + '_ {
        self.creds.chunks_exact(Cred::ROW).map(|row| Cred::from_row(row.try_into().expect("a row")))
    }

    /// The access rows held; no more than there is room for.
    #[cfg(feature = "alloc")]
    pub fn aces(&self) -> Vec<Ace> {
        self.each_ace().take(self.naces.into()).collect()
    }

    /// All places for access rows, the unused ones too.
    #[cfg(feature = "alloc")]
    pub fn ace_places(&self) -> Vec<Ace> {
        self.each_ace().collect()
    }

    /// The same one by one.
    pub fn each_ace(&self) -> impl Iterator<Item = Ace> + '_ {
        self.aces.chunks_exact(Ace::LENGTH).map(|row| Ace::from_bytes(row.try_into().expect("a row")))
    }

    /// Holds these credential rows. Panics where they are more than there is room for.
    pub fn set_creds(&mut self, rows: &[Cred]) {
        assert!(rows.len() <= Cred::CAPACITY, "more credential rows than there is room for");
        self.creds.fill(0);
        self.ncreds = rows.len() as u8;
        for (place, row) in self.creds.chunks_exact_mut(Cred::ROW).zip(rows) {
            place.copy_from_slice(&row.to_row());
        }
    }

    /// Holds these access rows. Panics where they are more than there is room for.
    pub fn set_aces(&mut self, rows: &[Ace]) {
        assert!(rows.len() <= Ace::CAPACITY, "more access rows than there is room for");
        self.aces.fill(0);
        self.naces = rows.len() as u8;
        for (place, row) in self.aces.chunks_exact_mut(Ace::LENGTH).zip(rows) {
            place.copy_from_slice(&row.body());
        }
    }
}

/// A record that waits in its sender's place.
#[cfg(feature = "alloc")]
#[derive(Clone, Debug, PartialEq, Eq)]
pub struct Slot {
    /// The sender's credential number, 0 for unauthenticated senders.
    pub sender: u16,
    /// The length that is written before the record.
    pub length: u16,
    /// The record, as far as there is room for it.
    pub record: Vec<u8>,
}

/// The memory of the queue: 6,504 bytes, which belong to the tables.
///
/// ```
/// use tillerclover::{record, Resource, Terminal, Verb, ANYONE};
/// let mut yard = Terminal::new();
/// let read = record(Verb::RETRIEVE, Resource::DOXM, ANYONE, &[]);
/// assert!(yard.hand_in(&read).is_permitted());
/// assert_eq!(yard.waiting.slots()[0].record, read);
/// assert_eq!(yard.waiting.last_taken(), None);
/// ```
#[repr(C)]
#[derive(Clone, Debug, PartialEq, Eq)]
pub struct Waiting {
    /// How many records wait, the round, and the slots.
    pub bytes: [u8; 6504],
}

impl Default for Waiting {
    fn default() -> Waiting {
        Waiting::FRESH
    }
}

impl Waiting {
    /// How many bytes it has.
    pub const SIZE: usize = size_of::<Waiting>();
    /// The length of a slot: sender, length and 256 bytes.
    pub const SLOT: usize = 260;
    /// That many records can wait.
    pub const CAPACITY: usize = 25;
    /// Nothing waits.
    pub const FRESH: Waiting = Waiting { bytes: [0; 6504] };

    /// Where the slots begin, after the count and the round.
    pub const SLOTS: usize = 4;

    /// How many records it says to hold.
    pub fn count(&self) -> u8 {
        self.bytes[0]
    }

    /// Whose record was taken last, 0 for an unauthenticated sender's; none while the round starts over.
    pub fn last_taken(&self) -> Option<u16> {
        (self.bytes[1..Waiting::SLOTS] != [0; 3]).then(|| u16::from_be_bytes([self.bytes[2], self.bytes[3]]))
    }

    /// The bytes of a slot.
    pub fn slot_bytes(&self, place: usize) -> &[u8] {
        &self.bytes[Waiting::SLOTS + place * Waiting::SLOT..][..Waiting::SLOT]
    }

    /// The records that wait; no more than there is room for.
    #[cfg(feature = "alloc")]
    pub fn slots(&self) -> Vec<Slot> {
        let held = usize::from(self.count()).min(Waiting::CAPACITY);
        (0..held).map(|place| Slot::read(self.slot_bytes(place))).collect()
    }
}

#[cfg(feature = "alloc")]
impl Slot {
    fn read(bytes: &[u8]) -> Slot {
        let length = u16::from_be_bytes([bytes[2], bytes[3]]);
        let kept = usize::from(length).min(bytes.len() - 4);
        Slot { sender: u16::from_be_bytes([bytes[0], bytes[1]]), length, record: bytes[4..4 + kept].to_vec() }
    }
}
