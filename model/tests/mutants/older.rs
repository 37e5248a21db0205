//! Mutants of the conversion of older lists: programs that make other rows of a
//! file.

use model::answers::*;
use model::case::{Case, GUARD};
use model::directory::{known, set_bit, YARD};
use model::examples::{ANON, AUTH};
use model::files::{Converted, File};
use model::older::{convert, OldRow, CONVERTED_MAX};
use model::tables::{Access, Row, Subject};

use Mutant::*;

/// A mutant, by what it does otherwise than the rules.
pub enum Mutant {
    /// What it makes of a file, given what is right.
    Any(&'static str, fn(&File, Converted) -> Converted),
    /// It changes the rows that a file becomes.
    Rows(&'static str, fn(&mut Vec<Access>)),
    /// It changes the bytes of the file before it converts them.
    Bytes(&'static str, fn(&mut Vec<u8>)),
}

impl Mutant {
    /// What it makes of a file, given what is right.
    pub fn run(&self, file: &File, right: Converted) -> Converted {
        match *self {
            Any(_, run) => run(file, right),
            Rows(_, change) => match convert(&file.bytes) {
                Ok(mut rows) => {
                    change(&mut rows);
                    with_rows(file, &rows)
                }
                Err(_) => right,
            },
            Bytes(_, change) => of_other(file, change),
        }
    }

    /// What it does, for a sentence that begins with "a mutant that".
    pub fn name(&self) -> &'static str {
        let (Any(name, ..) | Rows(name, ..) | Bytes(name, ..)) = self;
        name
    }
}

const ONE_TOO_MANY: usize = Access::CAPACITY + 1;

fn refused(answer: u8, file: &File) -> Converted {
    Converted { answer, length: 0, buffer: Case::pattern(file.capacity + GUARD) }
}

/// These rows, or the refusal when they do not fit.
fn with_rows(file: &File, rows: &[Access]) -> Converted {
    let bytes: Vec<u8> = rows.iter().flat_map(Row::bytes).collect();
    if bytes.len() > file.capacity {
        return refused(CONVERT_NO_ROOM, file);
    }
    let mut converted = Converted { length: bytes.len(), ..refused(PERMITTED, file) };
    converted.buffer[..bytes.len()].copy_from_slice(&bytes);
    converted
}

/// The result of another file.
fn of_other(file: &File, change: impl Fn(&mut Vec<u8>)) -> Converted {
    let mut other = file.clone();
    change(&mut other.bytes);
    Converted::expected(&other)
}

/// Numbers the rows from 1 again.
fn renumber(rows: &mut [Access]) {
    (1..).zip(rows).for_each(|(number, row)| row.number = number);
}

/// How many rows a file would make without a limit.
fn made_of(file: &[u8]) -> usize {
    let anybody = |row: &[u8]| row.iter().take(OldRow::SUBJECT.end).all(|&byte| byte == 0);
    file.chunks(OldRow::ROW_SIZE).map(|row| if anybody(row) { 2 } else { 1 }).sum()
}

pub const TABLE: &[Mutant] = &[
    Any("converts nothing", |file, _| refused(CONVERT_BAD_FILE, file)),
    Any("never says 23", |file, right| match right.answer {
        CONVERT_BAD_FILE => of_other(file, |bytes| {
            let rows = bytes.chunks(OldRow::ROW_SIZE).filter(|row| OldRow::read(row).is_some());
            *bytes = rows.flatten().copied().collect();
        }),
        _ => right,
    }),
    Bytes("looks at whole rows only", |bytes| bytes.truncate(bytes.len() / OldRow::ROW_SIZE * OldRow::ROW_SIZE)),
    Bytes("does not mind zero bits", |bytes| {
        bytes.chunks_exact_mut(OldRow::ROW_SIZE).for_each(|row| row[OldRow::ZEROS] &= 0xF8)
    }),
    Bytes("does not mind the last zero bit", |bytes| {
        bytes.chunks_exact_mut(OldRow::ROW_SIZE).for_each(|row| row[OldRow::ZEROS] &= 0xFE)
    }),
    Any("does not mind unknown resources", |file, _| {
        let known = known().to_be_bytes();
        of_other(file, |bytes| {
            for row in bytes.chunks_exact_mut(OldRow::ROW_SIZE) {
                row[OldRow::SET].iter_mut().zip(known).for_each(|(byte, known)| *byte &= known);
            }
        })
    }),
    Any("does not know the yard", |file, right| {
        let names_it = |row: &[u8]| OldRow::read(row).is_some_and(|row| row.set & set_bit(YARD) != 0);
        if file.bytes.chunks(OldRow::ROW_SIZE).any(names_it) {
            refused(CONVERT_BAD_FILE, file)
        } else {
            right
        }
    }),
    Any("never says 24", |file, right| match right.answer {
        CONVERT_TOO_MANY => of_other(file, |bytes| {
            while convert(bytes).is_err() {
                bytes.truncate(bytes.len() - OldRow::ROW_SIZE);
            }
        }),
        _ => right,
    }),
    Any("makes 33 rows", |file, right| match right.answer {
        CONVERT_TOO_MANY if made_of(&file.bytes) == ONE_TOO_MANY => {
            Converted { answer: PERMITTED, length: ONE_TOO_MANY * Access::BODY_SIZE, ..right }
        }
        _ => right,
    }),
    Any("makes 31 rows at most", |file, right| {
        if made_of(&file.bytes) >= Access::CAPACITY {
            refused(CONVERT_TOO_MANY, file)
        } else {
            right
        }
    }),
    Any("counts old rows for 24", |file, right| match right.answer {
        CONVERT_TOO_MANY if file.bytes.len() / OldRow::ROW_SIZE <= Access::CAPACITY => refused(PERMITTED, file),
        _ => right,
    }),
    Any("says 24 before 23", |file, right| match right.answer {
        CONVERT_BAD_FILE if file.bytes.len() / OldRow::ROW_SIZE > Access::CAPACITY => refused(CONVERT_TOO_MANY, file),
        _ => right,
    }),
    Any("says 25 before 24", |file, right| match right.answer {
        CONVERT_TOO_MANY if file.capacity < CONVERTED_MAX => refused(CONVERT_NO_ROOM, file),
        _ => right,
    }),
    Any("says 25 before 23", |file, right| match right.answer {
        CONVERT_BAD_FILE if file.capacity == 0 => refused(CONVERT_NO_ROOM, file),
        _ => right,
    }),
    Any("says 25 when the rows just fit", |file, right| {
        if right.length > 0 && right.length == file.capacity {
            refused(CONVERT_NO_ROOM, file)
        } else {
            right
        }
    }),
    Any("writes the rows that fit", |file, mut right| {
        if let (CONVERT_NO_ROOM, Ok(rows)) = (right.answer, convert(&file.bytes)) {
            let bytes: Vec<u8> = rows.iter().take(file.capacity / Access::BODY_SIZE).flat_map(Row::bytes).collect();
            right.buffer[..bytes.len()].copy_from_slice(&bytes);
        }
        right
    }),
    Any("writes the rows before a bad one", |file, mut right| {
        if right.answer == CONVERT_BAD_FILE {
            let good = file.bytes.chunks(OldRow::ROW_SIZE).take_while(|row| OldRow::read(row).is_some()).count();
            let rows = convert(&file.bytes[..good * OldRow::ROW_SIZE]).unwrap_or_default();
            let bytes: Vec<u8> = rows.iter().take(file.capacity / Access::BODY_SIZE).flat_map(Row::bytes).collect();
            right.buffer[..bytes.len()].copy_from_slice(&bytes);
        }
        right
    }),
    Any("reports the length it would need", |file, right| match right.answer {
        CONVERT_NO_ROOM => Converted { length: made_of(&file.bytes) * Access::BODY_SIZE, ..right },
        _ => right,
    }),
    Any("reports the number of rows", |_, right| Converted { length: right.length / Access::BODY_SIZE, ..right }),
    Any("clears the buffer after the rows", |file, mut right| {
        right.buffer[right.length..file.capacity].fill(0);
        right
    }),
    Rows("numbers rows from 0", |rows| rows.iter_mut().for_each(|row| row.number -= 1)),
    Rows("gives both rows of anybody one number", |rows| {
        for place in 1..rows.len() {
            if rows[place].subject == ANON {
                rows[place].number = rows[place - 1].number;
            }
        }
    }),
    Rows("puts anon-clear first", |rows| {
        for row in rows {
            row.subject = match row.subject {
                AUTH => ANON,
                ANON => AUTH,
                subject => subject,
            };
        }
    }),
    Rows("makes one row of anybody", |rows| {
        rows.retain(|row| row.subject != ANON);
        renumber(rows);
    }),
    Rows("puts the rows of anybody last", |rows| {
        rows.sort_by_key(|row| !matches!(row.subject, Subject::Uuid(_)));
        renumber(rows);
    }),
    Rows("joins the rows of a subject", |rows| {
        let mut joined: Vec<Access> = Vec::new();
        for row in rows.drain(..) {
            match joined.iter_mut().find(|held| held.subject == row.subject && held.set == row.set) {
                Some(held) => held.permission |= row.permission,
                None => joined.push(row),
            }
        }
        *rows = joined;
        renumber(rows);
    }),
    Rows("leaves rows without permission out", |rows| {
        rows.retain(|row| row.permission != 0);
        renumber(rows);
    }),
    Rows("gives a season that ends", |rows| rows.iter_mut().for_each(|row| row.period.last -= 1)),
    Rows("gives wildcards to all resources", |rows| rows.iter_mut().for_each(|row| row.wildcards.star = true)),
    Rows("has resource 0 at the low end", |rows| {
        rows.iter_mut().for_each(|row| row.set = row.set.reverse_bits() & known())
    }),
];
