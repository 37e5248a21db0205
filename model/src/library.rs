//! The proved library, called on the model's cases. Whatever it must not write to
//! is watched.

use tillerclover::{interface, Outcome, Table, Tables, Waiting};

use crate::case::{Call, Case, Seen, GUARD};
use crate::defaults::Defaults;
use crate::files::{Converted, File};
use crate::provisioning::Tested;
use crate::queue::{self, QueueBytes};
use crate::tables::{self, TableBytes};
use crate::texts::Listed;

const _: () = assert!(Tables::SIZE == tables::SIZE && Waiting::SIZE == queue::SIZE);

type Judging = fn(&mut Tables, &mut Waiting, tillerclover::Defaults, u32, &[u8], &mut [u8]) -> Outcome;
type Taking = fn(&mut Tables, &mut Waiting, tillerclover::Defaults, u32, &mut [u8]) -> tillerclover::Taken;

/// The functions of a side: the library, or for the benchmark the same work in C by
/// hand.
#[derive(Clone, Copy)]
pub struct Side {
    pub judge: Judging,
    pub hand_in: fn(&Tables, &mut Waiting, &[u8]) -> Outcome,
    pub take: Taking,
    pub access_list: fn(&Tables, &Waiting, &mut [u8]) -> tillerclover::Listed,
    pub test_list: fn(&[u8]) -> tillerclover::Tested,
    pub convert_list: fn(&[u8], &mut [u8]) -> tillerclover::Converted,
}

pub const LIBRARY: Side = Side {
    judge: interface::judge,
    hand_in: interface::hand_in,
    take: interface::take,
    access_list: interface::access_list,
    test_list: interface::test_list,
    convert_list: interface::convert_list,
};

/// The default lists of a case, for a call.
pub fn default_lists(defaults: &Defaults) -> tillerclover::Defaults<'_> {
    tillerclover::Defaults { creds: &defaults.default_creds, aces: &defaults.default_aces }
}

/// The queue, for a call.
pub fn queue(queue_bytes: &QueueBytes) -> Waiting {
    let mut queue = Waiting::FRESH;
    queue.bytes[..queue_bytes.trimmed().len()].copy_from_slice(queue_bytes.trimmed());
    queue
}

/// The tables and the queue of a call, and a guard after each.
#[repr(C)]
struct Watched {
    tables: Tables,
    after_tables: [u8; GUARD],
    queue: Waiting,
    after_queue: [u8; GUARD],
}

const UNTOUCHED: [u8; GUARD] = [0x5B; GUARD];

impl Watched {
    fn new(case: &Case) -> Watched {
        let (tables, queue) = (Tables::from_bytes(&case.tables), queue(&case.queue));
        Watched { tables, after_tables: UNTOUCHED, queue, after_queue: UNTOUCHED }
    }

    /// Tables and queue afterwards.
    fn bytes(&self) -> (TableBytes, QueueBytes) {
        assert_eq!(self.after_tables, UNTOUCHED, "bytes behind the tables were written");
        assert_eq!(self.after_queue, UNTOUCHED, "bytes behind the memory of what waits were written");
        (self.tables.to_bytes(), QueueBytes::from_bytes(&self.queue.bytes))
    }
}

/// Fresh tables and queue, whatever both were.
pub fn fresh(case: &Case) -> (TableBytes, QueueBytes) {
    let mut watched = Watched::new(case);
    interface::fresh(&mut watched.tables, &mut watched.queue, default_lists(&case.defaults));
    watched.bytes()
}

pub fn clear(case: &Case) -> (TableBytes, QueueBytes) {
    let mut watched = Watched::new(case);
    interface::clear(&mut watched.tables, &mut watched.queue, default_lists(&case.defaults));
    watched.bytes()
}

/// The call of a case.
pub fn judge(case: &Case) -> Seen {
    LIBRARY.judge(case)
}

/// The office text of a case's tables.
pub fn list(case: &Case) -> Listed {
    LIBRARY.list(case)
}

/// The test of a list.
pub fn tested(list: &[u8]) -> Tested {
    LIBRARY.tested(list)
}

/// The conversion of a file.
pub fn converted(file: &File) -> Converted {
    LIBRARY.converted(file)
}

impl Side {
    pub fn judge(&self, case: &Case) -> Seen {
        // The guard follows the buffer.
        let mut buffer = Case::pattern(case.capacity + GUARD);
        let mut watched = Watched::new(case);
        let defaults = default_lists(&case.defaults);
        let sound = interface::is_sound(&watched.tables, &watched.queue);
        let (reply, tables, queue) = (&mut buffer[..case.capacity], &mut watched.tables, &mut watched.queue);
        let (outcome, taken, record) = match case.call {
            Call::Judge => ((self.judge)(tables, queue, defaults, case.clock, &case.record, reply), 0, Vec::new()),
            Call::HandIn => ((self.hand_in)(tables, queue, &case.record), 0, Vec::new()),
            Call::Take => {
                let taken = (self.take)(tables, queue, defaults, case.clock, reply);
                (taken.outcome, taken.record_length, taken.record.to_vec())
            }
        };
        assert_eq!(sound, outcome.answer != tillerclover::Answer::NOT_SOUND, "sound is another thing than answer 1");
        let (tables, queue) = watched.bytes();
        Seen {
            answer: outcome.answer.number(),
            permission: outcome.permission.number(),
            payload: outcome.payload_offset..outcome.payload_offset.saturating_add(outcome.payload_length),
            reply: outcome.reply_length,
            buffer,
            store_first: outcome.store_first,
            store_count: outcome.store_count,
            store_table: outcome.store_table.map_or(0, |table| if table == Table::Creds { 1 } else { 2 }),
            links: outcome.link_set.0,
            link_count: outcome.link_count,
            taken,
            record,
            tables,
            queue,
        }
    }

    pub fn list(&self, case: &Case) -> Listed {
        // The guard follows the buffer.
        let mut buffer = Case::pattern(case.capacity + GUARD);
        let (tables, queue_bytes) = (Tables::from_bytes(&case.tables), queue(&case.queue));
        let listed = (self.access_list)(&tables, &queue_bytes, &mut buffer[..case.capacity]);
        assert_eq!(
            QueueBytes::from_bytes(&queue_bytes.bytes),
            case.queue,
            "the memory of what waits was written for a text"
        );
        Listed { answer: listed.answer.number(), length: listed.length, buffer }
    }

    pub fn tested(&self, list: &[u8]) -> Tested {
        let tillerclover::Tested { answer, row } = (self.test_list)(list);
        Tested { answer: answer.number(), row }
    }

    pub fn converted(&self, file: &File) -> Converted {
        // The guard follows the buffer.
        let mut buffer = Case::pattern(file.capacity + GUARD);
        let converted = (self.convert_list)(&file.bytes, &mut buffer[..file.capacity]);
        Converted { answer: converted.answer.number(), length: converted.length, buffer }
    }
}
