//! The test of a list of access rows that another firm's provisioning program
//! wrote, before it is loaded.

use crate::directory::security_resources;
use crate::record::{MAY_CREATE, MAY_DELETE, MAY_UPDATE};
use crate::rules::resource_fits;
use crate::tables::{Access, Row, Subject};

/// Why a list is not accepted; the value is its number.
#[derive(Clone, Copy, Debug, PartialEq, Eq)]
pub enum Refusal {
    BadSize = 19,
    NotStorable = 20,
    Excessive = 21,
}

/// The result of the test of a list.
#[derive(Clone, Copy, Debug, PartialEq, Eq)]
pub struct Tested {
    /// 0 when it is accepted, else the number of its first fault.
    pub answer: u8,
    /// The first bad row, counted from 1; 0 when there is none to name.
    pub row: usize,
}

/// Tests a list, rows of 36 bytes one after the other.
pub fn test(list: &[u8]) -> Tested {
    match check(list) {
        Ok(()) => Tested { answer: 0, row: 0 },
        Err((fault, row)) => Tested { answer: fault as u8, row },
    }
}

fn check(list: &[u8]) -> Result<(), (Refusal, usize)> {
    // 19
    let rows = list.chunks_exact(Access::BODY_SIZE);
    if !rows.remainder().is_empty() || rows.len() > Access::CAPACITY {
        return Err((Refusal::BadSize, 0));
    }
    let mut earlier: Vec<Access> = Vec::new();
    for (place, row) in (1..).zip(rows) {
        // 20
        let row = Access::read(row).ok_or((Refusal::NotStorable, place))?;
        if earlier.iter().any(|held| held.number == row.number) {
            return Err((Refusal::NotStorable, place));
        }
        // 21
        if opens_security(&row) {
            return Err((Refusal::Excessive, place));
        }
        earlier.push(row);
    }
    Ok(())
}

/// Whether the row lets a role or a connection create, update or delete on a
/// security resource, at whatever time.
pub fn opens_security(row: &Access) -> bool {
    let to_many = match row.subject {
        Subject::Uuid(_) => false,
        Subject::Role(_) | Subject::Connection(_) => true,
    };
    to_many && alters_security(row)
}

/// Whether the row gives create, update or delete on a security resource, to
/// whom and at whatever time.
pub fn alters_security(row: &Access) -> bool {
    let alters = row.permission & (MAY_CREATE | MAY_UPDATE | MAY_DELETE) != 0;
    alters && security_resources().any(|resource| resource_fits(row, resource))
}

#[cfg(test)]
#[path = "tests/provisioning.rs"]
mod tests;
