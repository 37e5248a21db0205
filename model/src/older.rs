//! Lists of the older terminals, in the earlier /oic/sec/acl form, and the access
//! rows that they become.

use std::ops::Range;

use crate::bits::{Fields, Packer};
use crate::defaults::join;
use crate::directory;
use crate::tables::{Access, Connection, Period, Row, Subject, Uuid, Wildcards};

/// Why a file is not converted; the value is its number.
#[derive(Clone, Copy, Debug, PartialEq, Eq)]
pub enum Refusal {
    BadFile = 23,
    TooMany = 24,
    NoRoom = 25,
}

/// The most bytes that a file becomes.
pub const CONVERTED_MAX: usize = Access::CAPACITY * Access::BODY_SIZE;

/// A row of an older terminal.
#[derive(Clone, Debug, PartialEq, Eq)]
pub struct OldRow {
    /// Nil is "*", anybody.
    pub subject: Option<Uuid>,
    pub permission: u8,
    /// The top bit is that of resource 0.
    pub set: u64,
}

impl OldRow {
    pub const ROW_SIZE: usize = 25;

    /// Its fields. ZEROS are the low three bits of their byte.
    pub const SUBJECT: Range<usize> = 0..16;
    pub const ZEROS: usize = 16;
    pub const SET: Range<usize> = 17..25;

    /// None for another length, a zero bit that is set or an unknown resource.
    pub fn read(row: &[u8]) -> Option<OldRow> {
        if row.len() != Self::ROW_SIZE {
            return None;
        }
        let mut fields = Fields::new(row);
        let subject = Uuid::new(fields.take(128));
        let permission = fields.take(5) as u8;
        let zeros = fields.take(3);
        let set = fields.take(64) as u64;
        (zeros == 0 && set & !directory::known() == 0).then_some(OldRow { subject, permission, set })
    }

    pub fn bytes(&self) -> Vec<u8> {
        Packer::new()
            .put(self.subject.map_or(0, Uuid::get), 128)
            .put(self.permission.into(), 5)
            .put(0, 3)
            .put(self.set.into(), 64)
            .bytes()
    }

    /// Whom the rows that it becomes are for.
    fn subjects(&self) -> Vec<Subject> {
        match self.subject {
            Some(uuid) => vec![Subject::Uuid(uuid)],
            None => [Connection::AuthCrypt, Connection::AnonClear].map(Subject::Connection).to_vec(),
        }
    }
}

/// The access rows that a file becomes.
pub fn convert(file: &[u8]) -> Result<Vec<Access>, Refusal> {
    // 23
    let old: Option<Vec<OldRow>> = file.chunks(OldRow::ROW_SIZE).map(OldRow::read).collect();
    let old = old.ok_or(Refusal::BadFile)?;
    let given = old.iter().flat_map(|row| row.subjects().into_iter().map(move |subject| (subject, row)));
    let made = |(number, (subject, row)): (u16, (Subject, &OldRow))| Access {
        number,
        subject,
        permission: row.permission,
        wildcards: Wildcards::default(),
        set: row.set,
        period: Period::ALWAYS,
    };
    let rows: Vec<Access> = (1..).zip(given).map(made).collect();
    // 24
    if rows.len() > Access::CAPACITY {
        return Err(Refusal::TooMany);
    }
    Ok(rows)
}

/// Writes them to the front of the buffer and returns their length. All other
/// bytes keep their contents.
pub fn write(file: &[u8], buffer: &mut [u8]) -> Result<usize, Refusal> {
    let rows = join(&convert(file)?);
    // 25
    let front = buffer.get_mut(..rows.len()).ok_or(Refusal::NoRoom)?;
    front.copy_from_slice(&rows);
    Ok(rows.len())
}

#[cfg(test)]
#[path = "tests/older.rs"]
mod tests;
