//! Files of older terminals to convert, each with a buffer chosen with the rows in
//! view; how often each answer came; shrinking.

use std::fmt;

use crate::case::{self, written, Case, GUARD};
use crate::directory::{self, DIRECTORY, WEIGHT};
use crate::examples::uuid;
use crate::generate;
use crate::hex;
use crate::older::{convert, write, OldRow, Refusal, CONVERTED_MAX};
use crate::random::Random;
use crate::spoil::FILE_FAULTS;
use crate::tables::{Access, Row, Uuid};

/// A file, and the length of the caller's buffer for its rows.
#[derive(Clone, Debug, PartialEq, Eq)]
pub struct File {
    pub bytes: Vec<u8>,
    pub capacity: usize,
}

impl File {
    /// As one line: the bytes in hexadecimal digits, a colon and the capacity in
    /// decimal.
    pub fn line(&self) -> String {
        format!("{}:{}", hex::write(&self.bytes), self.capacity)
    }

    pub fn from_line(line: &str) -> Result<File, String> {
        let (bytes, capacity) = line.split_once(':').ok_or("a file is FILE:ROOM, and this has no colon")?;
        let bytes = hex::read(bytes)?;
        let capacity =
            capacity.parse::<u16>().map_err(|_| format!("the capacity is a number up to 65535, not '{capacity}'"))?;
        Ok(File { bytes, capacity: capacity.into() })
    }
}

/// What a caller sees of the conversion.
#[derive(Clone, Debug, PartialEq, Eq)]
pub struct Converted {
    pub answer: u8,
    /// The length that is reported.
    pub length: usize,
    /// The buffer afterwards, and the guard of `GUARD` bytes after it.
    pub buffer: Vec<u8>,
}

impl Converted {
    /// What a caller is to see.
    pub fn expected(file: &File) -> Converted {
        let mut buffer = Case::pattern(file.capacity + GUARD);
        let (answer, length) = match write(&file.bytes, &mut buffer[..file.capacity]) {
            Ok(length) => (0, length),
            Err(reason) => (reason as u8, 0),
        };
        Converted { answer, length, buffer }
    }

    /// In one line, with the bytes that are reported as rows.
    pub fn describe(&self) -> String {
        let rows = hex::write(&self.buffer[..self.length.min(self.buffer.len())]);
        format!("answer {}, length {}, {}, rows '{rows}'", self.answer, self.length, written(&self.buffer))
    }
}

const ROW: usize = OldRow::ROW_SIZE;
const RANDOM: usize = 10_000;

/// All files; the seed decides what the random bytes in them are.
pub fn cases(seed: u64) -> impl Iterator<Item = File> {
    let mut random = Random::part(seed, 8);
    let files = [lengths(&mut random), flips(&mut random), counts(), fields(), faults(&mut random)];
    files.into_iter().flatten().chain((0..RANDOM).map(move |_| random_file(&mut random)))
}

/// That many rows of an older terminal, some of them for anybody.
pub fn good_file(random: &mut Random, rows: usize) -> Vec<u8> {
    let stars = random.pick(&[0, 30, 50, 100]);
    (0..rows).flat_map(|_| old_row(random, stars).bytes()).collect()
}

/// A row, for anybody in that many of a hundred cases.
fn old_row(random: &mut Random, stars: usize) -> OldRow {
    OldRow {
        subject: (!random.chance(stars)).then(|| generate::uuid(random)),
        permission: if random.chance(20) { random.pick(&[0, 31]) } else { random.below(32) as u8 },
        set: match random.below(5) {
            0 => random.pick(&[0, directory::known()]),
            1 | 2 => DIRECTORY[random.below(DIRECTORY.len())].bit(),
            _ => directory::known() & random.next(),
        },
    }
}

/// Any file, most of them good.
pub fn random_file(random: &mut Random) -> File {
    let rows = match random.below(10) {
        0 => 0,
        1..=5 => random.between(1, 8),
        6 | 7 => random.between(8, 20),
        _ => random.between(14, 36),
    };
    let mut bytes = good_file(random, rows);
    match random.below(10) {
        0..=5 => {}
        6 | 7 => spoil(&mut bytes, random),
        8 if !bytes.is_empty() => {
            let place = random.below(bytes.len());
            bytes[place] ^= 1 << random.below(8);
        }
        _ => {
            let rows = random.between(0, 3);
            bytes.extend(random.bytes(rows * ROW));
        }
    }
    let capacity = capacity(random, &bytes);
    File { bytes, capacity }
}

/// Any one fault that can be made.
fn spoil(file: &mut Vec<u8>, random: &mut Random) {
    loop {
        let (_, fault) = random.pick(&FILE_FAULTS);
        if fault(file, random) {
            return;
        }
    }
}

/// The bytes that the file becomes, if there are any such.
fn result(file: &[u8]) -> Option<usize> {
    convert(file).ok().map(|rows| rows.len() * Access::BODY_SIZE)
}

fn capacity(random: &mut Random, file: &[u8]) -> usize {
    // Without rows, any length will do.
    let fits = result(file).unwrap_or_else(|| random.between(0, CONVERTED_MAX));
    match random.below(10) {
        0..=3 => fits,
        4 | 5 => fits.saturating_sub(1),
        6 => random.below(fits + 1),
        7 => 0,
        8 => fits + random.between(1, 40),
        _ => random.between(CONVERTED_MAX, CONVERTED_MAX + 100),
    }
}

/// Each with a buffer that fits exactly, and with a buffer that lacks a byte.
fn fitted(files: Vec<Vec<u8>>) -> Vec<File> {
    let both = |bytes: Vec<u8>| {
        let fits = result(&bytes).unwrap_or(CONVERTED_MAX);
        [fits, fits.saturating_sub(1)].map(|capacity| File { bytes: bytes.clone(), capacity })
    };
    files.into_iter().flat_map(both).collect()
}

/// Every length, in bytes, of good rows and of bytes without sense.
fn lengths(random: &mut Random) -> Vec<File> {
    let mut files = Vec::new();
    let rows: Vec<u8> = (0..36).flat_map(|_| old_row(random, 10).bytes()).collect();
    for length in 0..=rows.len() {
        files.push(rows[..length].to_vec());
        if length % 7 == 0 || length % ROW == 0 {
            files.push(random.bytes(length));
            files.push(vec![0; length]);
        }
    }
    fitted(files)
}

/// Every bit of good files turned over: some become bad, some rows change from
/// one kind to the other.
fn flips(random: &mut Random) -> Vec<File> {
    let slight = |bit: u32| OldRow { subject: Uuid::new(1 << bit), permission: 2, set: directory::set_bit(WEIGHT) };
    let anybody = OldRow { subject: None, ..slight(0) };
    let made = [anybody.clone(), slight(0), slight(127), anybody];
    let mut files = Vec::new();
    for file in [made.iter().flat_map(OldRow::bytes).collect(), good_file(random, 6)] {
        for bit in 0..file.len() * 8 {
            let mut flipped = file.clone();
            flipped[bit / 8] ^= 0x80 >> (bit % 8);
            files.push(flipped);
        }
        files.push(file);
    }
    fitted(files)
}

/// Every count of rows of either kind, up to more than a table holds.
fn counts() -> Vec<File> {
    let row =
        |subject, number: usize| OldRow { subject, permission: (number % 32) as u8, set: directory::set_bit(WEIGHT) };
    let mut files = Vec::new();
    for theirs in 0..=34 {
        for anybodys in 0..=17 {
            let mut rows: Vec<OldRow> = (0..theirs).map(|number| row(Some(uuid(number as u8 + 1)), number)).collect();
            // In front, at the end, and one by one.
            for number in 0..anybodys {
                let place = match anybodys % 3 {
                    0 => 0,
                    1 => rows.len(),
                    _ => (2 * number).min(rows.len()),
                };
                rows.insert(place, row(None, number));
            }
            files.push(rows.iter().flat_map(OldRow::bytes).collect());
        }
    }
    fitted(files)
}

/// Every permission with every number of a resource, known or not, and every
/// value of the byte that holds the zero bits.
fn fields() -> Vec<File> {
    let mut files = Vec::new();
    for subject in [None, Some(uuid(0x22))] {
        for number in 0..64 {
            for permission in 0..32 {
                files.push(OldRow { subject, permission, set: directory::set_bit(number) }.bytes());
            }
        }
        for byte in 0..=255 {
            let mut row = OldRow { subject, permission: 0, set: directory::known() }.bytes();
            row[16] = byte;
            files.push(row);
        }
    }
    fitted(files)
}

/// Every fault at every row of files that make as many rows as there may be,
/// one more, and few; each with buffers that fit and don't.
fn faults(random: &mut Random) -> Vec<File> {
    let mut files = Vec::new();
    for (_, fault) in FILE_FAULTS {
        for rows in (0..=36).chain([16, 16, 17, 17, 32, 33]) {
            let mut file = good_file(random, rows);
            if fault(&mut file, random) {
                files.extend([0, CONVERTED_MAX].map(|capacity| File { bytes: file.clone(), capacity }));
            }
        }
    }
    let full: Vec<u8> = (0..33).flat_map(|_| old_row(random, 0).bytes()).collect();
    for place in 0..33 {
        for rows in [place + 1, 32, 33] {
            let mut file = full[..rows * ROW].to_vec();
            if let Some(zeros) = file.get_mut(place * ROW + 16) {
                *zeros |= 1 << random.below(3);
                files.extend([0, CONVERTED_MAX].map(|capacity| File { bytes: file.clone(), capacity }));
            }
        }
    }
    files
}

/// How often each answer came, and how the buffers fitted.
#[derive(Clone, Default)]
pub struct Counts {
    pub exact: u64,
    pub to_spare: u64,
    pub bad: u64,
    pub too_many: u64,
    pub too_short: u64,
}

impl Counts {
    pub fn add(&mut self, file: &File, converted: &Converted) {
        const BAD: u8 = Refusal::BadFile as u8;
        const TOO_MANY: u8 = Refusal::TooMany as u8;
        let count = match converted.answer {
            0 if converted.length == file.capacity => &mut self.exact,
            0 => &mut self.to_spare,
            BAD => &mut self.bad,
            TOO_MANY => &mut self.too_many,
            _ => &mut self.too_short,
        };
        *count += 1;
    }

    pub fn total(&self) -> u64 {
        let Counts { exact, to_spare, bad, too_many, too_short } = self;
        exact + to_spare + bad + too_many + too_short
    }
}

impl fmt::Display for Counts {
    fn fmt(&self, out: &mut fmt::Formatter) -> fmt::Result {
        let Counts { exact, to_spare, bad, too_many, too_short } = self;
        write!(
            out,
            "older lists: {}, of which {exact} fit exactly, {to_spare} with room to spare, {bad} are bad (23), \
             {too_many} make too many rows (24), {too_short} lack room (25)",
            self.total()
        )
    }
}

/// Makes a file smaller as long as its conversion differs.
pub fn shrink(file: File, differs: impl Fn(&File) -> bool) -> File {
    // The result gets shorter with the file, so the buffer has to go with it.
    let fitted = |bytes: &[u8]| {
        let fits = result(bytes).unwrap_or(0);
        let mut capacities = [0, fits.saturating_sub(1), fits, fits + 1, file.capacity];
        capacities.sort();
        capacities.into_iter().map(|capacity| File { bytes: bytes.to_vec(), capacity }).find(&differs)
    };
    let small = case::shrink_list(file.bytes.clone(), ROW, |bytes| fitted(bytes).is_some());
    fitted(&small).unwrap_or(File { bytes: small, ..file })
}

#[cfg(test)]
#[path = "tests/files.rs"]
mod tests;
