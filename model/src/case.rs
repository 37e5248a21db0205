//! A case as a line, its outcome as a caller sees it, and shrinking.

use std::ops::Range;

use crate::bits::be32;
use crate::defaults::Defaults;
use crate::directory::Security;
use crate::hex;
use crate::queue::{self, QueueBytes, COUNT, ROUND, SLOTS, SLOT_LENGTH, SLOT_RECORD, SLOT_SIZE};
use crate::record::{Header, HEADER_SIZE, RECORD_MAX};
use crate::rules::{judge, Outcome};
use crate::tables::{
    fresh_bytes, Access, Asserted, Credential, Row, TableBytes, ACCESSES, ACCESS_COUNT, CREDENTIALS, CREDENTIAL_COUNT,
    DEVICE_OWNER, OWNED, ROW_OWNERS, SIZE, STATE,
};

pub use crate::call::{Call, Case};

impl Call {
    pub const ALL: [Call; 3] = [Call::Judge, Call::HandIn, Call::Take];

    pub fn name(self) -> &'static str {
        match self {
            Call::Judge => "judge",
            Call::HandIn => "hand-in",
            Call::Take => "take",
        }
    }
}

impl Case {
    /// As one line: call, tables, queue, clock, record, capacity and the two default
    /// lists, with colons between. The call is a word. Clock and capacity are in
    /// decimal, all else is in hexadecimal digits. Zeros at the end of the queue are
    /// left out.
    pub fn line(&self) -> String {
        format!(
            "{}:{}:{}:{}:{}:{}:{}:{}",
            self.call.name(),
            hex::write(&self.tables),
            hex::write(self.queue.trimmed()),
            self.clock,
            hex::write(&self.record),
            self.capacity,
            hex::write(&self.defaults.default_creds),
            hex::write(&self.defaults.default_aces)
        )
    }

    pub fn from_line(line: &str) -> Result<Case, String> {
        let parts: Vec<&str> = line.split(':').collect();
        let [call, tables, queue, clock, record, capacity, credentials, accesses] = parts[..] else {
            return Err(format!(
                "a case is CALL:TABLES:WAITING:CLOCK:RECORD:ROOM:CREDENTIALS:ACCESSES, but this has {} parts",
                parts.len()
            ));
        };
        let known = Call::ALL.into_iter().find(|known| known.name() == call);
        let call = known.ok_or(format!("a call is judge, hand-in or take, not '{call}'"))?;
        let bytes = |text, name| hex::read(text).map_err(|fault| format!("the {name}: {fault}"));
        let tables = bytes(tables, "tables")?;
        let queue = bytes(queue, "memory of what waits")?;
        if queue.len() > queue::SIZE {
            return Err(format!("the memory has {} bytes, but these are {}", queue::SIZE, queue.len()));
        }
        let queue = QueueBytes::from_bytes(&queue);
        let record = bytes(record, "record")?;
        let defaults = Defaults {
            default_creds: bytes(credentials, "default credentials")?,
            default_aces: bytes(accesses, "default accesses")?,
        };
        let length = tables.len();
        let tables = tables.try_into().map_err(|_| format!("the tables have {SIZE} bytes, but these are {length}"))?;
        let clock = clock.parse().map_err(|_| format!("the clock is a number up to {}, not '{clock}'", u32::MAX))?;
        let capacity =
            capacity.parse::<u16>().map_err(|_| format!("the capacity is a number up to 65535, not '{capacity}'"))?;
        Ok(Case { call, tables, queue, clock, record, capacity: capacity.into(), defaults })
    }

    /// What is in the buffer and in the guard after it before the record is judged:
    /// `length` bytes.
    pub fn pattern(length: usize) -> Vec<u8> {
        (0..length).map(|place| (place * 29 + 0x5B) as u8).collect()
    }

    /// What a caller is to see.
    pub fn expected(&self) -> Seen {
        Seen::new(judge(self), self)
    }

    /// What shrinking makes smaller.
    fn size(&self) -> [usize; 9] {
        let set = |bytes: &[u8]| bytes.iter().filter(|&&byte| byte != 0).count();
        let Defaults { default_creds: credentials, default_aces: accesses } = &self.defaults;
        let lists = credentials.len() + accesses.len();
        let in_lists = set(credentials) + set(accesses);
        let queue_bytes = self.queue.trimmed();
        [
            self.record.len(),
            set(&self.record),
            queue_bytes.len(),
            set(queue_bytes),
            set(&self.tables),
            self.capacity,
            lists,
            in_lists,
            self.clock as usize,
        ]
    }

    /// Cases a step smaller, the boldest first.
    fn smaller(&self) -> Vec<Case> {
        let mut cases = Vec::new();
        let length = self.record.len();
        for kept in [0, 4, length / 2, length.saturating_sub(8), length.saturating_sub(1)] {
            if kept < length {
                cases.push(Case { record: self.record[..kept].to_vec(), ..self.clone() });
            }
        }
        if length > 4 {
            let mut cleared = self.clone();
            cleared.record[4..].fill(0);
            cases.push(cleared);
        }
        for place in 0..length {
            let mut cleared = self.clone();
            cleared.record[place] = 0;
            cases.push(cleared);
        }
        cases.extend(self.with_fewer_slots());
        cases.push(Case { tables: fresh_bytes(), ..self.clone() });
        for rows in [(CREDENTIAL_COUNT, CREDENTIALS), (ACCESS_COUNT, ACCESSES)] {
            let mut cleared = self.clone();
            cleared.tables[rows.0] = 0;
            cleared.tables[rows.1].fill(0);
            cases.push(cleared);
        }
        for place in 0..Credential::CAPACITY {
            cases.push(self.without_row::<Credential>(place, CREDENTIAL_COUNT, CREDENTIALS.start));
        }
        for place in 0..Access::CAPACITY {
            cases.push(self.without_row::<Access>(place, ACCESS_COUNT, ACCESSES.start));
        }
        for place in 0..Credential::CAPACITY {
            cases.extend(self.with_fewer_roles(place));
        }
        let mut unowned = self.clone();
        unowned.tables[OWNED] = 0;
        unowned.tables[DEVICE_OWNER].fill(0);
        cases.push(unowned);
        for start in ROW_OWNERS.step_by(16) {
            let mut cleared = self.clone();
            cleared.tables[start..start + 16].fill(0);
            cases.push(cleared);
        }
        for place in 0..SIZE {
            if self.tables[place] != 0 {
                let mut cleared = self.clone();
                cleared.tables[place] = 0;
                cases.push(cleared);
            }
        }
        for capacity in [0, self.capacity / 2, self.capacity.saturating_sub(16), self.capacity.saturating_sub(1)] {
            if capacity < self.capacity {
                cases.push(Case { capacity, ..self.clone() });
            }
        }
        for clock in [0, 1, self.clock / 2, self.clock.saturating_sub(1)] {
            if clock < self.clock {
                cases.push(self.with_ends_earlier(self.clock - clock));
                cases.push(Case { clock, ..self.clone() });
            }
        }
        for credentials in smaller_lists(&self.defaults.default_creds, Credential::BODY_SIZE) {
            cases.push(Case {
                defaults: Defaults { default_creds: credentials, ..self.defaults.clone() },
                ..self.clone()
            });
        }
        for accesses in smaller_lists(&self.defaults.default_aces, Access::BODY_SIZE) {
            cases.push(Case { defaults: Defaults { default_aces: accesses, ..self.defaults.clone() }, ..self.clone() });
        }
        cases
    }

    /// With the clock, all ends of periods and the last seconds of asserted roles
    /// that many seconds earlier, save the first and the last second of all.
    fn with_ends_earlier(&self, seconds: u32) -> Case {
        let mut case = Case { clock: self.clock - seconds, ..self.clone() };
        let earlier = |end: &mut [u8]| {
            let second = be32(end);
            if second != u32::MAX {
                end.copy_from_slice(&second.saturating_sub(seconds).to_be_bytes());
            }
        };
        for row in case.tables[ACCESSES].chunks_exact_mut(Access::ROW_SIZE) {
            row[Access::SHORT_BODY_SIZE..].chunks_exact_mut(4).for_each(earlier);
        }
        for row in case.tables[CREDENTIALS].chunks_exact_mut(Credential::ROW_SIZE) {
            row[Credential::BODY_SIZE..]
                .chunks_exact_mut(Asserted::SIZE)
                .for_each(|role| earlier(&mut role[Asserted::LAST]));
        }
        case
    }

    /// With nothing waiting, with a slot less, without a round, with a record cut
    /// to its header, and with a byte cleared.
    fn with_fewer_slots(&self) -> Vec<Case> {
        if self.queue == QueueBytes::empty() {
            return Vec::new();
        }
        let bytes = self.queue.whole();
        let mut queues = vec![Vec::new()];
        let slots = bytes[COUNT].min(queue::CAPACITY as u8).into();
        for slot in 0..slots {
            let start = SLOTS.start + slot * SLOT_SIZE;
            let mut without = [&bytes[..start], &bytes[start + SLOT_SIZE..]].concat();
            without[COUNT] -= 1;
            queues.push(without);
        }
        let mut anew = bytes.clone();
        anew[ROUND].fill(0);
        queues.push(anew);
        for slot in 0..slots {
            let start = SLOTS.start + slot * SLOT_SIZE;
            let mut cut = bytes.clone();
            cut[start + SLOT_LENGTH.start..start + SLOT_LENGTH.end].copy_from_slice(&[0, HEADER_SIZE as u8]);
            cut[start + SLOT_RECORD + HEADER_SIZE..start + SLOT_SIZE].fill(0);
            queues.push(cut);
        }
        for place in (0..bytes.len()).filter(|&place| bytes[place] != 0) {
            let mut cleared = bytes.clone();
            cleared[place] = 0;
            queues.push(cleared);
        }
        queues.iter().map(|bytes| Case { queue: QueueBytes::from_bytes(bytes), ..self.clone() }).collect()
    }

    /// Without both asserted roles of a row, without the first, and without the
    /// second.
    fn with_fewer_roles(&self, row: usize) -> [Case; 3] {
        let start = CREDENTIALS.start + row * Credential::ROW_SIZE + Credential::BODY_SIZE;
        let (second, end) = (start + Asserted::SIZE, start + 2 * Asserted::SIZE);
        let mut cases = [self.clone(), self.clone(), self.clone()];
        cases[0].tables[start..end].fill(0);
        cases[1].tables.copy_within(second..end, start);
        cases[1].tables[second..end].fill(0);
        cases[2].tables[second..end].fill(0);
        cases
    }

    fn without_row<R: Row>(&self, row: usize, count: usize, start: usize) -> Case {
        let mut case = self.clone();
        let end = start + R::CAPACITY * R::ROW_SIZE;
        let gap = start + row * R::ROW_SIZE;
        case.tables.copy_within(gap + R::ROW_SIZE..end, gap);
        case.tables[end - R::ROW_SIZE..end].fill(0);
        case.tables[count] = case.tables[count].saturating_sub(1);
        case
    }
}

/// Lists of rows a step smaller: none, a row less, a byte less, a byte cleared.
fn smaller_lists(list: &[u8], row: usize) -> Vec<Vec<u8>> {
    let mut lists = Vec::new();
    if list.is_empty() {
        return lists;
    }
    lists.push(Vec::new());
    if list.len() > row {
        for place in (0..list.len()).step_by(row) {
            lists.push([&list[..place], &list[list.len().min(place + row)..]].concat());
        }
    }
    lists.push(list[..list.len() - 1].to_vec());
    for place in 0..list.len() {
        let mut cleared = list.to_vec();
        cleared[place] = 0;
        lists.push(cleared);
    }
    lists
}

/// Makes a list of rows smaller as long as it still differs.
pub fn shrink_list(mut list: Vec<u8>, row: usize, differs: impl Fn(&[u8]) -> bool) -> Vec<u8> {
    let size = |list: &[u8]| (list.len(), list.iter().filter(|&&byte| byte != 0).count());
    loop {
        match smaller_lists(&list, row).into_iter().find(|smaller| size(smaller) < size(&list) && differs(smaller)) {
            Some(smaller) => list = smaller,
            None => return list,
        }
    }
}

/// Makes a case smaller as long as it still differs.
pub fn shrink(mut case: Case, mut differs: impl FnMut(&Case) -> bool) -> Case {
    loop {
        let size = case.size();
        match case.smaller().into_iter().find(|smaller| smaller.size() < size && differs(smaller)) {
            Some(smaller) => case = smaller,
            None => return case,
        }
    }
}

/// An outcome as a caller sees it.
#[derive(Clone, Debug, PartialEq, Eq)]
pub struct Seen {
    pub answer: u8,
    pub permission: u8,
    pub payload: Range<usize>,
    /// The length that is reported.
    pub reply: usize,
    /// The buffer afterwards, and the guard of `GUARD` bytes after it.
    pub buffer: Vec<u8>,
    /// The first row to store after a delete, and how many, and the number of their table: 1 for credential rows,
    /// 2 for access rows, 0 where there are none.
    pub store_first: usize,
    pub store_count: usize,
    pub store_table: u8,
    /// The links that the yard answers, and their count as it is reported.
    pub links: u64,
    pub link_count: usize,
    /// The length of the record that a take gives out, and all bytes there are for
    /// it; of another call none.
    pub taken: usize,
    pub record: Vec<u8>,
    pub tables: TableBytes,
    pub queue: QueueBytes,
}

/// That many bytes after the buffer are watched.
pub const GUARD: usize = 64;

impl Seen {
    /// The outcome of a case for its caller.
    pub fn new(outcome: Outcome, case: &Case) -> Seen {
        let mut buffer = Case::pattern(case.capacity + GUARD);
        let response = outcome.response;
        buffer[..response.reply.len()].copy_from_slice(&response.reply);
        let taken = outcome.taken.len();
        let judged = if case.call == Call::Take { &outcome.taken } else { &case.record };
        let store_table = if response.store.is_empty() { 0 } else { table_number(judged) };
        let mut record = outcome.taken;
        if case.call == Call::Take {
            record.resize(RECORD_MAX, 0);
        }
        Seen {
            answer: response.answer,
            permission: response.permission,
            link_count: response.link_count(),
            payload: response.payload,
            reply: response.reply.len(),
            buffer,
            store_first: response.store.start,
            store_count: response.store.len(),
            store_table,
            links: response.links,
            taken,
            record,
            tables: outcome.tables,
            queue: outcome.queue,
        }
    }

    /// The tables and the queue afterwards.
    pub fn after(self) -> (TableBytes, QueueBytes) {
        (self.tables, self.queue)
    }

    /// Whether both are the same; an empty payload may start anywhere.
    pub fn same(&self, other: &Seen) -> bool {
        self.answer == other.answer
            && self.permission == other.permission
            && (self.payload == other.payload || self.payload.is_empty() && other.payload.is_empty())
            && self.reply == other.reply
            && self.buffer == other.buffer
            && (self.store_first, self.store_count) == (other.store_first, other.store_count)
            && self.store_table == other.store_table
            && (self.links, self.link_count) == (other.links, other.link_count)
            && (self.taken, &self.record) == (other.taken, &other.record)
            && self.tables == other.tables
            && self.queue == other.queue
    }

    /// In one line, as the outcome of a case.
    pub fn describe(&self, case: &Case) -> String {
        let before = &case.tables;
        let tables = match first_change(before, &self.tables) {
            None => "tables unchanged".into(),
            Some(_) if self.tables == case.defaults.fresh().bytes() => "tables fresh".into(),
            Some(place) => {
                let changed = (0..SIZE).filter(|&place| before[place] != self.tables[place]).count();
                format!("tables changed in {changed} bytes, the first at {}", field(place))
            }
        };
        let queue_bytes = match first_change(&case.queue.whole(), &self.queue.whole()) {
            None => "memory unchanged".into(),
            Some(_) if self.queue == QueueBytes::empty() => "memory fresh".into(),
            Some(place) => format!("memory changed, first at {}", queue::field(place)),
        };
        format!(
            "answer {}, permission {}, payload from {} length {}, reply length {}, {}, \
             places from {} many {} of table {}, set {:016x} size {}, record length {}, {tables}, {queue_bytes}",
            self.answer,
            self.permission,
            self.payload.start,
            self.payload.len(),
            self.reply,
            written(&self.buffer),
            self.store_first,
            self.store_count,
            self.store_table,
            self.links,
            self.link_count,
            self.taken
        )
    }
}

/// The table whose rows a record deletes, as C numbers it: of /oic/sec/cred or of /oic/sec/acl2.
fn table_number(record: &[u8]) -> u8 {
    const CRED: u8 = Security::Cred as u8;
    const ACL2: u8 = Security::Acl2 as u8;
    match Header::read(record).resource {
        CRED => 1,
        ACL2 => 2,
        _ => panic!("only these two resources have rows"),
    }
}

/// How far a buffer that held the pattern was written to.
pub fn written(buffer: &[u8]) -> String {
    let pattern = Case::pattern(buffer.len());
    let last = (0..pattern.len()).rev().find(|&place| pattern[place] != buffer[place]);
    last.map_or("nothing written".into(), |place| format!("written up to byte {place}"))
}

/// The first byte in which tables or buffers differ.
pub fn first_change(one: &[u8], other: &[u8]) -> Option<usize> {
    one.iter().zip(other).position(|(one, other)| one != other)
}

/// What a byte of the tables belongs to.
pub fn field(place: usize) -> String {
    let name = match place {
        STATE => "state".into(),
        OWNED => "owned".into(),
        CREDENTIAL_COUNT => "count of credentials".into(),
        ACCESS_COUNT => "count of accesses".into(),
        _ if DEVICE_OWNER.contains(&place) => "device owner".into(),
        _ if ROW_OWNERS.contains(&place) => format!("row owner {}", (place - ROW_OWNERS.start) / 16),
        _ if CREDENTIALS.contains(&place) => {
            let (row, byte) = (
                (place - CREDENTIALS.start) / Credential::ROW_SIZE,
                (place - CREDENTIALS.start) % Credential::ROW_SIZE,
            );
            match byte.checked_sub(Credential::BODY_SIZE) {
                None => format!("credential place {row}"),
                Some(byte) => format!("asserted role {} of credential place {row}", byte / Asserted::SIZE),
            }
        }
        _ => format!("access place {}", (place - ACCESSES.start) / Access::ROW_SIZE),
    };
    format!("byte {place} ({name})")
}

#[cfg(test)]
#[path = "tests/case.rs"]
mod tests;
