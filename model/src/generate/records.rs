//! The next record of a session, in view of the tables and the clock, and the buffer for
//! its reply (U1).

use super::*;

/// The next record, made with the present tables and the clock in view.
pub fn record(random: &mut Random, style: Style, present: &TableBytes, clock: u32) -> Vec<u8> {
    let tables = Tables::read(present).unwrap_or_else(|_| Tables::fresh());
    match style {
        Style::Purposeful => {
            let mut wish = purposeful(random, &tables, clock);
            for _ in 0..6 {
                if wish.permitted(&tables, clock).is_empty() {
                    wish = purposeful(random, &tables, clock);
                }
            }
            wish.sent(random, &tables, clock, 95)
        }
        Style::Mixed => {
            let mut record = mixed(random, &tables, clock);
            if random.chance(4) {
                spoil::damage(&mut record, random);
            }
            record
        }
        Style::Damaged => {
            let mut record = mixed(random, &tables, clock);
            while random.chance(50) {
                spoil::damage(&mut record, random);
            }
            record
        }
        Style::Noise => {
            let length = if random.chance(90) { random.between(0, 40) } else { random.between(0, 300) };
            let mut record = random.bytes(length);
            // Half of them with a header that gets past the first checks.
            if length >= HEADER_SIZE && random.chance(50) {
                let verb = random.below(5) as u8;
                let resource = DIRECTORY[random.below(DIRECTORY.len())].number;
                let header = Header { verb, connection: Connection::AnonClear, resource, zeros: 0, credential: 0 };
                record[..HEADER_SIZE].copy_from_slice(&header.with_body(&[]));
            }
            record
        }
    }
}

/// The longest buffer.
pub const MOST_ROOM: usize = 1300;

/// The length of a buffer for this case, chosen with its reply in view.
pub fn capacity(random: &mut Random, case: &Case) -> usize {
    let fits = judge(&Case { capacity: REPLY_MAX, ..case.clone() }).response.reply.len();
    match random.below(20) {
        0..=4 if fits > 0 => fits,
        5..=8 if fits > 0 => fits - 1,
        9 if fits > 0 => fits + 1,
        10 | 11 if fits > 0 => random.below(fits),
        0..=13 => 0,
        14..=17 => random.between(REPLY_MAX, MOST_ROOM),
        _ => random.between(0, MOST_ROOM),
    }
}

/// Any record at all, some of them forbidden in one place.
pub(super) fn mixed(random: &mut Random, tables: &Tables, clock: u32) -> Vec<u8> {
    let mut wish = match random.weighted(&[
        (if tables.state == State::Rfnop { 30 } else { 10 }, 0),
        (10, 1),
        (if tables.credentials.len() == Credential::CAPACITY { 30 } else { 14 }, 2),
        (if tables.accesses.len() == Access::CAPACITY { 30 } else { 14 }, 3),
        (12, 4),
        (if tables.credentials.is_empty() || tables.accesses.is_empty() { 4 } else { 1 }, 5),
        (6, 6),
        (6, 7),
        (9, 8),
        (8, 9),
        (3, 10),
        (8, 11),
        (if tables.state == State::Rfnop { 25 } else { 5 }, 12),
    ]) {
        0 => application(random),
        1 => read_security(random, tables),
        2 => store_credential(random, tables),
        3 => store_access(random, tables),
        4 => delete_row(random, tables, 60),
        11 => delete_subject(random, tables, 40),
        12 => show_role(random, tables, clock),
        5 => delete_all(random),
        6 => {
            let owner = maybe_uuid(random);
            set_row_owner(random, owner)
        }
        7 => {
            let owner = random.chance(75).then(|| held_subject(random, tables));
            set_device_owner(owner)
        }
        8 => target(if random.chance(10) { 0 } else { random.between(1, 4) as u8 }),
        9 => {
            let length = random.pick(&[0, 1, 2, 8, 16, 17, 21, 23, 28, 36]);
            let body = if random.chance(50) { vec![0; length] } else { random.bytes(length) };
            Wish::new(random.pick(&Verb::ALL), random.below(5) as u8, body)
        }
        _ => {
            let resource = spoil::unknown_resource(random) as u8;
            let length = random.below(30);
            Wish::new(random.pick(&Verb::ALL), resource, random.bytes(length))
        }
    };
    if random.chance(8) {
        spoil::spoil_body(&mut wish.body, random);
    }
    let mut record = wish.sent(random, tables, clock, 70);
    // Headers that are wrong in one place.
    match random.below(60) {
        0 => record[0] |= 0xA0,
        1 => record[1] |= 1 << random.below(6),
        2 => record[0] ^= 0x10,
        3 => record[2..4].fill(0),
        _ => {}
    }
    record
}
