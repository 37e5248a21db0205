//! The rows that a build supplies for fresh tables.

use crate::tables::{Access, Credential, Row, Tables};

/// The most rows in a list.
pub const DEFAULTS_MAX: usize = 2;

/// Two lists of rows in the form of their bodies, joined, as the build hands them
/// in. They may be bad.
#[derive(Clone, Debug, Default, PartialEq, Eq)]
pub struct Defaults {
    pub default_creds: Vec<u8>,
    pub default_aces: Vec<u8>,
}

/// Why a list counts as none.
#[derive(Clone, Copy, Debug, PartialEq, Eq, PartialOrd, Ord)]
pub enum ListError {
    /// No whole number of rows.
    Length,
    TooManyRows,
    Row,
    NumberTwice,
}

impl Defaults {
    pub fn none() -> Defaults {
        Defaults::default()
    }

    pub fn of(credentials: &[Credential], accesses: &[Access]) -> Defaults {
        Defaults { default_creds: join(credentials), default_aces: join(accesses) }
    }

    pub fn read_credentials(&self) -> Result<Vec<Credential>, ListError> {
        read_list(&self.default_creds)
    }

    pub fn read_accesses(&self) -> Result<Vec<Access>, ListError> {
        read_list(&self.default_aces)
    }

    /// Whether a list of them counts as none for a fault.
    pub fn bad(&self) -> bool {
        self.read_credentials().is_err() || self.read_accesses().is_err()
    }

    /// The tables of a new terminal, and those after the clear button or RESET.
    pub fn fresh(&self) -> Tables {
        Tables {
            credentials: self.read_credentials().unwrap_or_default(),
            accesses: self.read_accesses().unwrap_or_default(),
            ..Tables::fresh()
        }
    }
}

/// Rows as one list of bytes.
pub fn join<R: Row>(rows: &[R]) -> Vec<u8> {
    rows.iter().flat_map(Row::bytes).collect()
}

fn read_list<R: Row>(bytes: &[u8]) -> Result<Vec<R>, ListError> {
    if !bytes.len().is_multiple_of(R::BODY_SIZE) {
        return Err(ListError::Length);
    }
    if bytes.len() / R::BODY_SIZE > DEFAULTS_MAX {
        return Err(ListError::TooManyRows);
    }
    let rows: Option<Vec<R>> = bytes.chunks_exact(R::BODY_SIZE).map(R::read).collect();
    let rows = rows.ok_or(ListError::Row)?;
    match &rows[..] {
        [first, second] if first.number() == second.number() => Err(ListError::NumberTwice),
        _ => Ok(rows),
    }
}

#[cfg(test)]
#[path = "tests/defaults.rs"]
mod tests;
