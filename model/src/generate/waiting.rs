//! Waiting records (U13): queues that are sound for tables, and queues of any
//! content.

use super::*;

/// A queue of any content, mostly a sound one for these tables.
pub fn any_queue(random: &mut Random, tables: &TableBytes) -> QueueBytes {
    if random.chance(20) {
        let length = random.between(1, queue::SIZE);
        return QueueBytes::from_bytes(&random.bytes(length));
    }
    queue_bytes(random, tables, 20, 30)
}

/// A sound queue for these tables, with some slots or all occupied, and a round of
/// any kind.
pub fn queue(random: &mut Random, tables: &Tables) -> Queue {
    let mut owners = vec![UNAUTHENTICATED];
    owners.extend(tables.credentials.iter().map(Row::number));
    let last = match random.below(10) {
        0..=2 => None,
        3 => Some(number(random)),
        _ => Some(random.pick(&owners)),
    };
    let percent = random.pick(&[15, 50, 80, 100]);
    let mut slots: Vec<Slot> = Vec::new();
    for owner in owners {
        if random.chance(percent) {
            let slot = Slot { owner, record: record_of(random, tables, owner) };
            slots.insert(random.below(slots.len() + 1), slot);
        }
    }
    Queue { last, slots }
}

/// A record that passes checks 2 to 7 for this owner.
pub(super) fn record_of(random: &mut Random, tables: &Tables, owner: Seat) -> Vec<u8> {
    let clock = second(random);
    loop {
        let drawn = mixed(random, tables, clock);
        let (header, body) = (Header::read(&drawn), &drawn[HEADER_SIZE..]);
        let connection = if owner == UNAUTHENTICATED { Connection::AnonClear } else { Connection::AuthCrypt };
        let record = Header { connection, credential: owner, ..header }.with_body(body);
        if receive(tables, &record).is_ok() {
            return record;
        }
    }
}

/// A queue to start from: empty, sound, or spoilt in that many of a hundred cases.
pub(super) fn queue_bytes(random: &mut Random, tables: &TableBytes, fresh: usize, spoilt: usize) -> QueueBytes {
    let tables = match Tables::read(tables) {
        Ok(tables) if !random.chance(fresh) => tables,
        _ => return QueueBytes::empty(),
    };
    let queue_bytes = queue(random, &tables).bytes();
    if random.chance(spoilt) {
        let mut bytes = queue_bytes.whole();
        spoil::spoil_queue(&mut bytes, random);
        return QueueBytes::from_bytes(&bytes);
    }
    queue_bytes
}
