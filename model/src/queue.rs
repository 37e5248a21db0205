//! The queue: records that wait for their turn, one for each sender, and the
//! 6,504 bytes that hold them.

use std::ops::Range;

use crate::bits::be16;
use crate::record::{Header, RECORD_MAX};
use crate::rules::receive;
use crate::tables::{Credential, Row, Tables};

pub const SIZE: usize = 6504;
pub const COUNT: usize = 0;
pub const ROUND: Range<usize> = 1..4;
pub const SLOTS: Range<usize> = 4..SIZE;

/// A slot: its owner (16 bits), the length of the record (16 bits), the record,
/// zeros.
pub const SLOT_SIZE: usize = SLOT_RECORD + RECORD_MAX;
pub const SLOT_OWNER: Range<usize> = 0..2;
pub const SLOT_LENGTH: Range<usize> = 2..4;
pub const SLOT_RECORD: usize = 4;

/// One for each credential row, and one for all unauthenticated senders.
pub const CAPACITY: usize = Credential::CAPACITY + 1;

/// Whose slot it is: the number of a credential row, or 0 for unauthenticated
/// senders. The paper's word is place.
pub type Seat = u16;
pub const UNAUTHENTICATED: Seat = 0;

/// The bytes of the queue, kept without the zeros at their end.
#[derive(Clone, Debug, Default, PartialEq, Eq)]
pub struct QueueBytes(Vec<u8>);

impl QueueBytes {
    /// All zero: no record waits, and the round is reset.
    pub fn empty() -> QueueBytes {
        QueueBytes::default()
    }

    /// The queue that begins with these bytes; zeros follow them.
    pub fn from_bytes(bytes: &[u8]) -> QueueBytes {
        let used = bytes.iter().rposition(|&byte| byte != 0).map_or(0, |last| last + 1);
        QueueBytes(bytes[..used].to_vec())
    }

    /// All its bytes.
    pub fn whole(&self) -> Vec<u8> {
        let mut bytes = self.0.clone();
        bytes.resize(SIZE, 0);
        bytes
    }

    /// Without the zeros at its end.
    pub fn trimmed(&self) -> &[u8] {
        &self.0
    }
}

/// A slot that is used.
#[derive(Clone, Debug, PartialEq, Eq)]
pub struct Slot {
    pub owner: Seat,
    pub record: Vec<u8>,
}

/// What a sound queue holds.
#[derive(Clone, Debug, Default, PartialEq, Eq)]
pub struct Queue {
    /// The owner of the slot taken last; None when the round is reset.
    pub last: Option<Seat>,
    /// In order of hand-in.
    pub slots: Vec<Slot>,
}

/// Why bytes are no sound queue for some tables.
#[derive(Clone, Copy, Debug, PartialEq, Eq, PartialOrd, Ord)]
pub enum Error {
    Count,
    Round,
    /// A record that does not pass checks 2 to 7, or not for the owner of its slot.
    Record,
    SeatTwice,
    /// A byte after a record, or after the last slot.
    Unused,
}

/// The owner of the slot for a record that passes checks 2 to 7.
pub fn seat(record: &[u8]) -> Seat {
    Header::read(record).credential
}

impl Queue {
    /// No record waits, and the round is reset.
    pub fn empty() -> Queue {
        Queue::default()
    }

    /// Reads the bytes for sound tables; an error says that the queue is not sound.
    pub fn read(bytes: &QueueBytes, tables: &Tables) -> Result<Queue, Error> {
        if *bytes == QueueBytes::empty() {
            return Ok(Queue::empty());
        }
        let bytes = bytes.whole();
        let count = bytes[COUNT] as usize;
        if count > CAPACITY {
            return Err(Error::Count);
        }
        let last = match bytes[ROUND] {
            [0, 0, 0] => None,
            [1, high, low] => Some(Seat::from_be_bytes([high, low])),
            _ => return Err(Error::Round),
        };
        let (used, unused) = bytes[SLOTS].split_at(count * SLOT_SIZE);
        let mut slots: Vec<Slot> = Vec::new();
        for slot in used.chunks_exact(SLOT_SIZE) {
            let slot = read_slot(slot, tables)?;
            if slots.iter().any(|earlier| earlier.owner == slot.owner) {
                return Err(Error::SeatTwice);
            }
            slots.push(slot);
        }
        if unused.iter().any(|&byte| byte != 0) {
            return Err(Error::Unused);
        }
        Ok(Queue { last, slots })
    }

    pub fn bytes(&self) -> QueueBytes {
        let mut bytes = vec![self.slots.len() as u8];
        match self.last {
            None => bytes.extend([0, 0, 0]),
            Some(owner) => {
                bytes.push(1);
                bytes.extend(owner.to_be_bytes());
            }
        }
        for Slot { owner, record } in &self.slots {
            let end = bytes.len() + SLOT_SIZE;
            bytes.extend(owner.to_be_bytes());
            bytes.extend((record.len() as u16).to_be_bytes());
            bytes.extend(record);
            bytes.resize(end, 0);
        }
        QueueBytes::from_bytes(&bytes)
    }

    /// Whether a record of this owner waits.
    pub fn occupied(&self, owner: Seat) -> bool {
        self.slots.iter().any(|slot| slot.owner == owner)
    }

    /// The owner whose turn it is: the first with a record, from the one after the
    /// owner taken last, once round.
    pub fn turn(&self, tables: &Tables) -> Option<Seat> {
        let mut owners = vec![UNAUTHENTICATED];
        owners.extend(tables.credentials.iter().map(Row::number));
        // An owner that the tables don't hold resets the round.
        let last = self.last.and_then(|last| owners.iter().position(|&owner| owner == last));
        owners.rotate_left(last.map_or(0, |last| last + 1));
        owners.into_iter().find(|&owner| self.occupied(owner))
    }

    /// Puts a record into the slot of its sender, which is not occupied.
    pub fn enqueue(&mut self, record: Vec<u8>) {
        self.slots.push(Slot { owner: seat(&record), record });
    }

    /// Takes the record of an owner out. This owner is then the one taken last.
    pub fn dequeue(&mut self, owner: Seat) -> Option<Vec<u8>> {
        let slot = self.slots.iter().position(|slot| slot.owner == owner)?;
        self.last = Some(owner);
        Some(self.slots.remove(slot).record)
    }

    /// The queue when credential rows have come or gone. A record whose row is gone
    /// is orphaned, and is dropped. The round goes on after an owner that was there
    /// before and is there still.
    pub fn drop_orphans(mut self, before: &Tables, after: &Tables) -> Queue {
        if before.credentials.len() == after.credentials.len() {
            return self;
        }
        let known = |tables: &Tables, owner| owner == UNAUTHENTICATED || tables.credential(owner).is_some();
        self.slots.retain(|slot| known(after, slot.owner));
        self.last = self.last.filter(|&last| known(before, last) && known(after, last));
        self
    }
}

/// A slot that is used.
fn read_slot(slot: &[u8], tables: &Tables) -> Result<Slot, Error> {
    let owner = be16(&slot[SLOT_OWNER]);
    let length = be16(&slot[SLOT_LENGTH]) as usize;
    let (record, unused) = slot[SLOT_RECORD..].split_at_checked(length).ok_or(Error::Record)?;
    receive(tables, record).map_err(|_| Error::Record)?;
    if seat(record) != owner {
        return Err(Error::Record);
    }
    if unused.iter().any(|&byte| byte != 0) {
        return Err(Error::Unused);
    }
    Ok(Slot { owner, record: record.to_vec() })
}

/// What a byte of the queue belongs to.
pub fn field(byte: usize) -> String {
    let name = match byte {
        COUNT => "count of records that wait".into(),
        _ if ROUND.contains(&byte) => "round".into(),
        _ => format!("slot {}", (byte - SLOTS.start) / SLOT_SIZE),
    };
    format!("byte {byte} of the memory ({name})")
}

#[cfg(test)]
#[path = "tests/queue.rs"]
mod tests;
