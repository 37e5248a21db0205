//! Tables: sound ones with few rows or many, and bytes that are sound only by
//! chance.

use super::*;

/// How many rows a table gets.
#[derive(Clone, Copy)]
pub(super) enum Fill {
    Few,
    Any,
    NearFull,
    Full,
}

impl Fill {
    fn rows(self, random: &mut Random, capacity: usize) -> usize {
        match self {
            Fill::Few => random.between(0, 5),
            Fill::Any => random.between(0, capacity),
            Fill::NearFull => random.between(capacity - 3, capacity),
            Fill::Full => capacity,
        }
    }
}

pub(super) fn sound(random: &mut Random, fill: Fill) -> Tables {
    let state = random.weighted(&[(25, State::Rfotm), (28, State::Rfpro), (27, State::Rfnop), (20, State::Sreset)]);
    let mut tables = Tables::fresh();
    tables.state = state;
    for _ in 0..fill.rows(random, Credential::CAPACITY) {
        let held: Vec<u16> = tables.credentials.iter().map(Row::number).collect();
        tables.credentials.push(credential(random, &held));
    }
    let rows = match random.below(3) {
        0 => fill.rows(random, Access::CAPACITY).min(6),
        _ => fill.rows(random, Access::CAPACITY),
    };
    for _ in 0..rows {
        let held: Vec<u16> = tables.accesses.iter().map(Row::number).collect();
        let mut row = access(random, &held);
        meet(random, &mut row, &tables.credentials);
        tables.accesses.push(row);
    }
    if state != State::Rfotm || random.chance(60) {
        // Mostly somebody who holds a credential.
        let owner = if tables.credentials.is_empty() || random.chance(10) {
            uuid(random)
        } else {
            tables.credentials[random.below(tables.credentials.len())].subject
        };
        tables.device_owner = Some(owner);
    }
    for owner in &mut tables.row_owners {
        *owner = maybe_uuid(random);
    }
    tables
}

/// Sound tables of any kind.
pub fn any_sound(random: &mut Random) -> Tables {
    let fill = random.weighted(&[(50, Fill::Few), (25, Fill::Any), (12, Fill::NearFull), (13, Fill::Full)]);
    sound(random, fill)
}

/// Sound tables with 24 and up to 32 rows.
pub fn full_sound(random: &mut Random) -> Tables {
    sound(random, Fill::Full)
}

/// Bytes that make sound tables only by chance.
pub fn noise(random: &mut Random) -> TableBytes {
    let mut stored = [0; SIZE];
    stored.fill_with(|| random.byte());
    stored
}

/// Tables of any content.
pub fn any_bytes(random: &mut Random) -> TableBytes {
    let mut stored = any_sound(random).bytes();
    match random.below(4) {
        0 => {}
        1 => spoil::spoil_tables(&mut stored, random),
        2 => {
            for _ in 0..random.between(2, 5) {
                spoil::spoil_tables(&mut stored, random);
            }
        }
        _ => return noise(random),
    }
    stored
}
