//! Ways to break things: forbidden rows and bodies, lists that are not accepted or
//! not converted, tables and queues that are not sound, damaged records.

use crate::bits::be16;
use crate::directory;
use crate::older::OldRow;
use crate::queue::{CAPACITY, COUNT, ROUND, SLOTS, SLOT_LENGTH, SLOT_RECORD, SLOT_SIZE};
use crate::random::Random;
use crate::record::{HEADER_SIZE, MAY_CREATE, MAY_DELETE, MAY_UPDATE, RECORD_MAX};
use crate::tables::{
    Access, Asserted, Credential, Row, TableBytes, ACCESSES, ACCESS_COUNT, CREDENTIALS, CREDENTIAL_COUNT, DEVICE_OWNER,
    NUMBER, OWNED, SIZE, STATE, SUBJECT_CONNECTION, SUBJECT_ROLE, SUBJECT_UUID,
};

/// A fault of a row: afterwards the row is forbidden, whatever it was.
pub type RowFault = (&'static str, fn(&mut [u8], &mut Random));

/// The first `SHORT_CREDENTIAL_FAULTS` of them are those of a body without an
/// authority, too.
pub const CREDENTIAL_FAULTS: [RowFault; 5] = [
    ("number 0", |row, _| row[NUMBER].fill(0)),
    ("nil subject", |row, _| row[Credential::SUBJECT].fill(0)),
    ("two bits of type", |row, random| {
        let first = random.below(6);
        let second = (first + random.between(1, 5)) % 6;
        row[row.len() - 1] = 4 << first | 4 << second;
    }),
    ("zero bit", |row, random| row[row.len() - 1] |= 1 << random.below(2)),
    AUTHORITY_WITHOUT_ROLE,
];
pub const SHORT_CREDENTIAL_FAULTS: usize = 4;

/// The first `SHORT_ACCESS_FAULTS` of them are those of a body without a period,
/// too.
pub const ACCESS_FAULTS: [RowFault; 9] = [
    ("number 0", |row, _| row[NUMBER].fill(0)),
    ("subject kind 3", |row, _| set_kind(row, 3)),
    ("zero bit", |row, random| row[Access::ZEROS] |= 1 << random.below(6)),
    ("unknown resource", |row, random| {
        let number = unknown_resource(random);
        set_bit(&mut row[Access::SET], number);
    }),
    ("nil subject", |row, _| {
        set_kind(row, SUBJECT_UUID);
        row[Access::SUBJECT].fill(0);
    }),
    ("role 0", |row, random| {
        set_kind(row, SUBJECT_ROLE);
        row[Access::SUBJECT].fill(0);
        row[Access::AUTHORITY.start + random.below(2)] = random.pick(&[0, 1, 7, 0x80]);
    }),
    ("bit before the authority", |row, random| {
        set_kind(row, SUBJECT_ROLE);
        row[Access::SUBJECT].fill(0);
        row[Access::AUTHORITY.end - 1] = random.pick(&[0, 1, 7]);
        row[Access::ROLE.end - 1] = random.byte();
        set_bit(&mut row[Access::SUBJECT], random.below(8 * (Access::AUTHORITY.start - Access::SUBJECT.start)));
    }),
    ("bit before the connection", |row, random| {
        set_kind(row, SUBJECT_CONNECTION);
        row[Access::SUBJECT].fill(0);
        row[Access::CONNECTION] = random.byte() & 1;
        set_bit(&mut row[Access::SUBJECT], random.below(127));
    }),
    FIRST_LATER_THAN_LAST,
];
pub const SHORT_ACCESS_FAULTS: usize = 8;

pub const FIRST_LATER_THAN_LAST: RowFault = ("first later than last", |row, random| {
    let last = match random.below(4) {
        0 => 0,
        1 => u32::MAX - 1,
        2 => 0x00FF << random.pick(&[0, 8, 16]),
        _ => random.next() as u32 >> 1,
    };
    // Mostly by little.
    let first = match random.below(3) {
        0 => u32::MAX,
        1 => last.saturating_add(1 << random.below(32)),
        _ => last + 1,
    };
    row[Access::FIRST].copy_from_slice(&first.to_be_bytes());
    row[Access::LAST].copy_from_slice(&last.to_be_bytes());
});

pub const AUTHORITY_WITHOUT_ROLE: RowFault = ("authority beside role 0", |row, random| {
    row[Credential::ROLE].fill(0);
    row[Credential::AUTHORITY].fill(0);
    row[Credential::AUTHORITY.start + random.below(2)] = random.between(1, 255) as u8;
});

/// Where the second asserted role of a row begins, the low byte of a role's number,
/// and the bytes without the number.
const SECOND: usize = Asserted::SIZE;
const LOW: usize = Asserted::ROLE_NUMBER.end - 1;
const BESIDE_ROLE: [usize; 6] = [0, 1, 4, 5, 6, 7];

/// Faults of the two asserted roles that a credential row has room for.
pub const ASSERTED_FAULTS: [RowFault; 5] = [
    ("second place before the first", |roles, random| {
        roles.fill(0);
        roles[SECOND + random.below(Asserted::SIZE)] = random.between(1, 255) as u8;
        roles[SECOND + LOW] |= 1;
    }),
    ("byte beside no role, first", |roles, random| {
        roles.fill(0);
        roles[random.pick(&BESIDE_ROLE)] = random.between(1, 255) as u8;
        if random.chance(50) {
            roles[SECOND + LOW] = 7;
        }
    }),
    ("byte beside no role, second", |roles, random| {
        roles[LOW] |= 1;
        roles[SECOND..].fill(0);
        roles[SECOND + random.pick(&BESIDE_ROLE)] = random.between(1, 255) as u8;
    }),
    ("equal roles", |roles, _| {
        roles[LOW] |= 1;
        roles.copy_within(..SECOND, SECOND);
    }),
    ("equal roles with other last seconds", |roles, random| {
        roles[LOW] |= 1;
        roles.copy_within(..SECOND, SECOND);
        roles[SECOND + Asserted::LAST.start + random.below(4)] ^= 1 << random.below(8);
    }),
];

fn set_kind(row: &mut [u8], kind: u8) {
    row[Access::KIND] = row[Access::KIND] & 0x3F | kind << 6;
}

fn set_bit(bytes: &mut [u8], place: usize) {
    bytes[place / 8] |= 0x80 >> (place % 8);
}

/// A number of 6 bits that no resource has.
pub fn unknown_resource(random: &mut Random) -> usize {
    loop {
        let bound = random.pick(&[18, 64]);
        let number = random.below(bound);
        if directory::find(number as u8).is_none() {
            return number;
        }
    }
}

/// A fault of a list to load, with the answer that it leads to. It says whether
/// it could be made; a list that was accepted is then accepted no longer.
pub type LoadFault = (&'static str, u8, fn(&mut Vec<u8>, &mut Random) -> bool);

pub const LOAD_FAULTS: [LoadFault; 6] = [
    ("bytes that make no row", 19, |list, random| {
        let bytes = random.between(1, Access::BODY_SIZE - 1);
        if random.chance(50) && !list.is_empty() {
            // A list that is shorter than that makes no row as it is.
            list.truncate(list.len().checked_sub(bytes).unwrap_or(list.len()));
        } else {
            list.extend(random.bytes(bytes));
        }
        true
    }),
    ("too many rows", 19, |list, random| {
        let rows = if random.chance(50) { Access::CAPACITY + 1 } else { random.between(Access::CAPACITY + 1, 40) };
        let more = (rows * Access::BODY_SIZE).saturating_sub(list.len());
        list.extend(random.bytes(more));
        more > 0
    }),
    ("forbidden row", 20, |list, random| {
        let (_, fault) = random.pick(&ACCESS_FAULTS);
        any_row(list, random).map(|row| fault(row, random)).is_some()
    }),
    ("unused row", 20, |list, random| any_row(list, random).map(|row| row.fill(0)).is_some()),
    ("number again", 20, |list, random| {
        let rows = list.len() / Access::BODY_SIZE;
        if rows < 2 {
            return false;
        }
        let later = random.between(1, rows - 1);
        let earlier = random.below(later) * Access::BODY_SIZE;
        list.copy_within(earlier..earlier + 2, later * Access::BODY_SIZE);
        true
    }),
    ("opened security resource", 21, |list, random| any_row(list, random).map(|row| open(row, random)).is_some()),
];

/// A fault of a file to convert. It says whether it could be made; a good file is
/// then bad.
pub type FileFault = (&'static str, fn(&mut Vec<u8>, &mut Random) -> bool);

pub const FILE_FAULTS: [FileFault; 3] = [
    ("bytes that make no row", |file, random| {
        let bytes = random.between(1, OldRow::ROW_SIZE - 1);
        if random.chance(50) && !file.is_empty() {
            file.truncate(file.len() - bytes);
        } else {
            file.extend(random.bytes(bytes));
        }
        true
    }),
    ("zero bit", |file, random| {
        let zeros = 1 << random.below(3);
        any_old_row(file, random).map(|row| row[OldRow::ZEROS] |= zeros).is_some()
    }),
    ("unknown resource", |file, random| {
        let number = unknown_resource(random);
        any_old_row(file, random).map(|row| set_bit(&mut row[OldRow::SET], number)).is_some()
    }),
];

fn any_old_row<'a>(file: &'a mut [u8], random: &mut Random) -> Option<&'a mut [u8]> {
    let rows = file.len() / OldRow::ROW_SIZE;
    (rows > 0).then(|| &mut file[random.below(rows) * OldRow::ROW_SIZE..][..OldRow::ROW_SIZE])
}

fn any_row<'a>(list: &'a mut [u8], random: &mut Random) -> Option<&'a mut [u8]> {
    let rows = list.len() / Access::BODY_SIZE;
    (rows > 0).then(|| &mut list[random.below(rows) * Access::BODY_SIZE..][..Access::BODY_SIZE])
}

/// Lets a role or a connection write to a security resource.
fn open(row: &mut [u8], random: &mut Random) {
    row[Access::SUBJECT].fill(0);
    if random.chance(50) {
        set_kind(row, SUBJECT_ROLE);
        row[Access::AUTHORITY.end - 1] = random.pick(&[0, 1, 7]);
        row[Access::ROLE.end - 1] = random.between(1, 255) as u8;
    } else {
        set_kind(row, SUBJECT_CONNECTION);
        row[Access::CONNECTION] = random.byte() & 1;
    }
    row[Access::KIND] |= random.pick(&[MAY_CREATE, MAY_UPDATE, MAY_DELETE]) << 1;
    let security: Vec<u8> = directory::security_resources().map(|resource| resource.number).collect();
    set_bit(&mut row[Access::SET], random.pick(&security).into());
}

/// A fault of tables. It says whether it could be made; sound tables are then
/// sound no longer.
pub type TableFault = (&'static str, fn(&mut TableBytes, &mut Random) -> bool);

pub const TABLE_FAULTS: [TableFault; 21] = [
    ("state 0", |stored, _| {
        stored[STATE] = 0;
        true
    }),
    ("state over 4", |stored, random| {
        stored[STATE] = over(4, random);
        true
    }),
    ("owned over 1", |stored, random| {
        stored[OWNED] = over(1, random);
        true
    }),
    ("not owned, with an owner", |stored, random| {
        stored[STATE] = 1;
        stored[OWNED] = 0;
        stored[DEVICE_OWNER].fill(0);
        set_bit(&mut stored[DEVICE_OWNER], random.below(128));
        true
    }),
    ("owned by nil", |stored, _| {
        stored[OWNED] = 1;
        stored[DEVICE_OWNER].fill(0);
        true
    }),
    ("not owned in a later state", |stored, random| {
        stored[STATE] = random.between(2, 4) as u8;
        stored[OWNED] = 0;
        stored[DEVICE_OWNER].fill(0);
        true
    }),
    ("over 24 credentials", |stored, random| {
        stored[CREDENTIAL_COUNT] = over(24, random);
        true
    }),
    ("over 32 accesses", |stored, random| {
        stored[ACCESS_COUNT] = over(32, random);
        true
    }),
    ("one credential too many", |stored, _| one_too_many::<Credential>(stored, CREDENTIAL_COUNT)),
    ("one access too many", |stored, _| one_too_many::<Access>(stored, ACCESS_COUNT)),
    ("one credential too few", |stored, _| one_too_few(stored, CREDENTIAL_COUNT)),
    ("one access too few", |stored, _| one_too_few(stored, ACCESS_COUNT)),
    ("byte behind the credentials", |stored, random| {
        byte_behind::<Credential>(stored, random, CREDENTIAL_COUNT, CREDENTIALS.start)
    }),
    ("byte behind the accesses", |stored, random| byte_behind::<Access>(stored, random, ACCESS_COUNT, ACCESSES.start)),
    ("credential number twice", |stored, random| {
        number_twice::<Credential>(stored, random, CREDENTIAL_COUNT, CREDENTIALS.start)
    }),
    ("access number twice", |stored, random| number_twice::<Access>(stored, random, ACCESS_COUNT, ACCESSES.start)),
    ("forbidden credential", |stored, random| {
        let fault = random.pick(&CREDENTIAL_FAULTS);
        spoil_row::<Credential>(stored, random, fault, CREDENTIAL_COUNT, CREDENTIALS.start)
    }),
    ("authority beside role 0", |stored, random| {
        spoil_row::<Credential>(stored, random, AUTHORITY_WITHOUT_ROLE, CREDENTIAL_COUNT, CREDENTIALS.start)
    }),
    ("forbidden access", |stored, random| {
        let fault = random.pick(&ACCESS_FAULTS);
        spoil_row::<Access>(stored, random, fault, ACCESS_COUNT, ACCESSES.start)
    }),
    ("first later than last", |stored, random| {
        spoil_row::<Access>(stored, random, FIRST_LATER_THAN_LAST, ACCESS_COUNT, ACCESSES.start)
    }),
    ("forbidden asserted roles", |stored, random| {
        let fault = random.pick(&ASSERTED_FAULTS);
        spoil_places(stored, random, fault)
    }),
];

fn over(capacity: usize, random: &mut Random) -> u8 {
    if random.chance(50) {
        capacity as u8 + 1
    } else {
        random.between(capacity + 1, 255) as u8
    }
}

fn one_too_many<R: Row>(stored: &mut TableBytes, count: usize) -> bool {
    let possible = (stored[count] as usize) < R::CAPACITY;
    if possible {
        stored[count] += 1;
    }
    possible
}

fn one_too_few(stored: &mut TableBytes, count: usize) -> bool {
    let possible = stored[count] > 0;
    if possible {
        stored[count] -= 1;
    }
    possible
}

fn byte_behind<R: Row>(stored: &mut TableBytes, random: &mut Random, count: usize, start: usize) -> bool {
    let used = stored[count] as usize;
    if used >= R::CAPACITY {
        return false;
    }
    let place = random.between(start + used * R::ROW_SIZE, start + R::CAPACITY * R::ROW_SIZE - 1);
    stored[place] = random.between(1, 255) as u8;
    true
}

fn number_twice<R: Row>(stored: &mut TableBytes, random: &mut Random, count: usize, start: usize) -> bool {
    let used = stored[count] as usize;
    if !(2..=R::CAPACITY).contains(&used) {
        return false;
    }
    let first = random.below(used);
    let second = (first + random.between(1, used - 1)) % used;
    let number = start + first * R::ROW_SIZE;
    stored.copy_within(number..number + 2, start + second * R::ROW_SIZE);
    true
}

fn spoil_row<R: Row>(
    stored: &mut TableBytes,
    random: &mut Random,
    fault: RowFault,
    count: usize,
    start: usize,
) -> bool {
    let used = stored[count] as usize;
    if !(1..=R::CAPACITY).contains(&used) {
        return false;
    }
    let place = start + random.below(used) * R::ROW_SIZE;
    (fault.1)(&mut stored[place..place + R::BODY_SIZE], random);
    true
}

/// Makes the asserted roles of a row forbidden.
fn spoil_places(stored: &mut TableBytes, random: &mut Random, fault: RowFault) -> bool {
    let used = stored[CREDENTIAL_COUNT] as usize;
    if !(1..=Credential::CAPACITY).contains(&used) {
        return false;
    }
    let place = CREDENTIALS.start + random.below(used) * Credential::ROW_SIZE;
    (fault.1)(&mut stored[place + Credential::BODY_SIZE..place + Credential::ROW_SIZE], random);
    true
}

/// Any one fault that can be made.
pub fn spoil_tables(stored: &mut TableBytes, random: &mut Random) {
    loop {
        let (_, fault) = random.pick(&TABLE_FAULTS);
        if fault(stored, random) {
            return;
        }
    }
}

/// A fault of the queue. It returns whether it could be made; a queue that is sound
/// for some tables is then no longer so.
pub type QueueFault = (&'static str, fn(&mut [u8], &mut Random) -> bool);

pub const QUEUE_FAULTS: [QueueFault; 17] = [
    ("over 25 records", |queue_bytes, random| {
        queue_bytes[COUNT] = over(CAPACITY, random);
        true
    }),
    ("one record too many", |queue_bytes, _| {
        let possible = (queue_bytes[COUNT] as usize) < CAPACITY;
        queue_bytes[COUNT] += u8::from(possible);
        possible
    }),
    ("one record too few", |queue_bytes, _| {
        let possible = queue_bytes[COUNT] > 0;
        queue_bytes[COUNT] -= u8::from(possible);
        possible
    }),
    ("round of another kind", |queue_bytes, random| {
        queue_bytes[ROUND.start] = over(1, random);
        true
    }),
    ("number beside no round", |queue_bytes, random| {
        queue_bytes[ROUND].fill(0);
        queue_bytes[ROUND.start + 1 + random.below(2)] = random.between(1, 255) as u8;
        true
    }),
    ("byte behind the records", |queue_bytes, random| {
        let used = queue_bytes[COUNT] as usize;
        if used >= CAPACITY {
            return false;
        }
        let place = random.between(SLOTS.start + used * SLOT_SIZE, SLOTS.end - 1);
        queue_bytes[place] = random.between(1, 255) as u8;
        true
    }),
    ("byte behind a record", |queue_bytes, random| {
        spoil_slot(queue_bytes, random, |slot, random| {
            let length = be16(&slot[SLOT_LENGTH]) as usize;
            let possible = length < RECORD_MAX;
            if possible {
                slot[random.between(SLOT_RECORD + length, SLOT_SIZE - 1)] = random.between(1, 255) as u8;
            }
            possible
        })
    }),
    ("record too short", |queue_bytes, random| {
        spoil_slot(queue_bytes, random, |slot, random| {
            slot[SLOT_LENGTH].copy_from_slice(&[0, random.below(HEADER_SIZE) as u8]);
            slot[SLOT_RECORD + HEADER_SIZE - 1..].fill(0);
            true
        })
    }),
    ("record too long", |queue_bytes, random| {
        spoil_slot(queue_bytes, random, |slot, random| {
            let length = random.pick(&[257, 260, 512, 0xFFFF]);
            slot[SLOT_LENGTH].copy_from_slice(&u16::to_be_bytes(length));
            true
        })
    }),
    ("verb of a record", |queue_bytes, random| {
        spoil_slot(queue_bytes, random, |slot, random| {
            slot[SLOT_RECORD] = slot[SLOT_RECORD] & 0x1F | random.pick(&[0xA0, 0xC0, 0xE0]);
            true
        })
    }),
    ("zero bit of a record", |queue_bytes, random| {
        spoil_slot(queue_bytes, random, |slot, random| {
            slot[SLOT_RECORD + 1] |= 1 << random.below(6);
            true
        })
    }),
    ("connection of a record", |queue_bytes, random| {
        spoil_slot(queue_bytes, random, |slot, _| {
            slot[SLOT_RECORD] ^= 0x10;
            true
        })
    }),
    ("unknown resource of a record", |queue_bytes, random| {
        let number = unknown_resource(random) as u8;
        spoil_slot(queue_bytes, random, |slot, _| {
            let (first, second) = (SLOT_RECORD, SLOT_RECORD + 1);
            slot[first] = slot[first] & 0xF0 | number >> 2;
            slot[second] = slot[second] & 0x3F | number << 6;
            true
        })
    }),
    ("another place", |queue_bytes, random| {
        // The record keeps its sender.
        spoil_slot(queue_bytes, random, |slot, random| {
            slot[random.below(2)] ^= 1 << random.below(8);
            true
        })
    }),
    ("another sender", |queue_bytes, random| {
        spoil_slot(queue_bytes, random, |slot, random| {
            slot[SLOT_RECORD + 2 + random.below(2)] ^= 1 << random.below(8);
            true
        })
    }),
    ("place twice", |queue_bytes, random| {
        let used = queue_bytes[COUNT] as usize;
        if !(2..=CAPACITY).contains(&used) {
            return false;
        }
        let first = random.below(used);
        let second = (first + random.between(1, used - 1)) % used;
        let slot = SLOTS.start + first * SLOT_SIZE;
        queue_bytes.copy_within(slot..slot + SLOT_SIZE, SLOTS.start + second * SLOT_SIZE);
        true
    }),
    ("gap before a record", |queue_bytes, random| {
        let used = queue_bytes[COUNT] as usize;
        if !(1..CAPACITY).contains(&used) {
            return false;
        }
        let gap = SLOTS.start + random.below(used) * SLOT_SIZE;
        queue_bytes.copy_within(gap..SLOTS.end - SLOT_SIZE, gap + SLOT_SIZE);
        queue_bytes[gap..gap + SLOT_SIZE].fill(0);
        true
    }),
];

fn spoil_slot(queue_bytes: &mut [u8], random: &mut Random, fault: impl Fn(&mut [u8], &mut Random) -> bool) -> bool {
    let used = queue_bytes[COUNT] as usize;
    if !(1..=CAPACITY).contains(&used) {
        return false;
    }
    let slot = SLOTS.start + random.below(used) * SLOT_SIZE;
    fault(&mut queue_bytes[slot..slot + SLOT_SIZE], random)
}

/// Any one fault that can be made.
pub fn spoil_queue(queue_bytes: &mut [u8], random: &mut Random) {
    loop {
        let (_, fault) = random.pick(&QUEUE_FAULTS);
        if fault(queue_bytes, random) {
            return;
        }
    }
}

/// Turns a bit over anywhere in the tables; they may stay sound.
pub fn flip_table_bit(stored: &mut TableBytes, random: &mut Random) {
    // The first 84 bytes are few and matter most.
    let bound = if random.chance(50) { CREDENTIALS.start } else { SIZE };
    stored[random.below(bound)] ^= 1 << random.below(8);
}

/// Makes an UPDATE or DELETE body likely to be forbidden.
pub fn spoil_body(body: &mut Vec<u8>, random: &mut Random) {
    if random.chance(20) {
        if random.chance(50) {
            body.push(random.byte());
        } else {
            body.pop();
        }
        return;
    }
    match body.len() {
        1 => body[0] = if random.chance(50) { random.byte() | 0xA0 } else { body[0] | 1 << random.below(5) },
        2 | 16 => body.fill(0),
        Asserted::SIZE => body[2..4].fill(0),
        17 => match random.below(3) {
            0 => body[0] ^= 0x80,
            1 => body[0] |= 1 << random.below(7),
            _ => body[1..].fill(0),
        },
        Credential::BODY_SIZE => (random.pick(&CREDENTIAL_FAULTS).1)(body, random),
        Credential::SHORT_BODY_SIZE => (random.pick(&CREDENTIAL_FAULTS[..SHORT_CREDENTIAL_FAULTS]).1)(body, random),
        Access::BODY_SIZE => (random.pick(&ACCESS_FAULTS).1)(body, random),
        Access::SHORT_BODY_SIZE => (random.pick(&ACCESS_FAULTS[..SHORT_ACCESS_FAULTS]).1)(body, random),
        _ => body.push(0),
    }
}

/// Damages a record as a line might: bits turned over, bytes lost or added.
pub fn damage(record: &mut Vec<u8>, random: &mut Random) {
    match random.weighted(&[(35, 0), (15, 1), (20, 2), (12, 3), (3, 4), (10, 5), (5, 6)]) {
        0 if !record.is_empty() => {
            let place = random.below(record.len());
            record[place] ^= 1 << random.below(8);
        }
        1 => {
            // Within the header, where most is decided.
            let place = random.below(4);
            if let Some(byte) = record.get_mut(place) {
                *byte ^= 1 << random.below(8);
            }
        }
        2 => record.truncate(random.below(record.len() + 1)),
        3 => {
            let more = random.between(1, 12);
            let zeros = random.chance(50);
            record.extend(random.bytes(more).iter().map(|&byte| if zeros { 0 } else { byte }));
        }
        4 => {
            let length = random.pick(&[255, 256, 257, 258, 300, 512]);
            record.resize(length, 0);
        }
        5 if !record.is_empty() => {
            let place = random.below(record.len());
            record[place] = random.byte();
        }
        _ => {
            let length = record.len();
            if length >= 2 {
                record.swap(random.below(length), random.below(length));
            }
        }
    }
}

#[cfg(test)]
#[path = "tests/spoil.rs"]
mod tests;
