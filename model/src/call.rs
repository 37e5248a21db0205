//! A call of the terminal: what is asked of it, and all that the answer depends on.

use crate::defaults::Defaults;
use crate::queue::QueueBytes;
use crate::rules::REPLY_MAX;
use crate::tables::TableBytes;

/// What is asked of the terminal.
#[derive(Clone, Copy, Debug, PartialEq, Eq)]
pub enum Call {
    /// To judge a record directly.
    Judge,
    /// To enqueue a record until its turn. Clock, capacity and default lists don't
    /// matter.
    HandIn,
    /// To judge the record whose turn it is. The record doesn't matter.
    Take,
}

/// Tables, a queue, and a call.
#[derive(Clone, Debug, PartialEq, Eq)]
pub struct Case {
    pub call: Call,
    pub tables: TableBytes,
    pub queue: QueueBytes,
    /// The terminal's clock when the call is made.
    pub clock: u32,
    pub record: Vec<u8>,
    /// The length of the caller's buffer, for a reply or for the office text of the
    /// tables.
    pub capacity: usize,
    /// The rows of fresh tables.
    pub defaults: Defaults,
}

impl Case {
    /// To judge a record with an empty queue, at clock 0, with a buffer that fits
    /// any reply, and no default rows.
    pub fn new(tables: &TableBytes, record: &[u8]) -> Case {
        Case {
            call: Call::Judge,
            tables: *tables,
            queue: QueueBytes::empty(),
            clock: 0,
            record: record.to_vec(),
            capacity: REPLY_MAX,
            defaults: Defaults::none(),
        }
    }
}
