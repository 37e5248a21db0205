//! One line of a journal and its fields, as docs/JOURNAL.md has them. What is not so
//! is an error that names the field.

use chrono::NaiveDate;
use tillerclover::{Answer, Given, Header, Permission, Tables, Waiting};

/// No line has more bytes, its line feed among them.
pub const LONGEST: usize = 32_768;
/// The format that is read.
const FORMAT: &str = "journal-1";
/// The chain before the first line of the first file.
pub const ZEROS: Chain = [b'0'; 64];
/// The reasons of a start, with what they say.
pub const REASONS: [(&str, &str); 6] = [
    ("new", "a new terminal"),
    ("first", "with what was stored; the journal begins here"),
    ("same", "with the tables that the journal ended with"),
    ("unstored", "with the tables before the last change, which was not stored"),
    ("other", "with OTHER tables than the journal ended with"),
    ("damaged", "with a store that could not be read"),
];
/// Why a program turned a record away, with what that says.
pub const WHYS: [(&str, &str); 3] = [
    ("occupied", "a record of this sender was held already"),
    ("session-over", "its session was opened under another row or key"),
    ("assertions", "the sender has asserted as many roles as a day has"),
];

/// The 64 digits of a sum, as they are written.
pub type Chain = [u8; 64];

/// The tables and the queue.
#[derive(Clone, Debug, PartialEq, Eq)]
pub struct Memory {
    /// The tables.
    pub tables: Tables,
    /// The queue.
    pub waiting: Waiting,
}

/// A record that was judged, and what it got.
#[derive(Clone, Debug, PartialEq, Eq)]
pub struct Outcome {
    /// The clock that the library was given.
    pub clock: u32,
    /// The record.
    pub record: Vec<u8>,
    /// Its answer.
    pub answer: Answer,
    /// The effective permission.
    pub permission: Permission,
}

/// What a line says.
#[derive(Clone, Debug, PartialEq, Eq)]
pub enum What {
    /// The first line of a file: its number, and the chain of the line before.
    Begin(u64, Chain),
    /// What the answers depend on: the library's identity, the room for a reply, the default rows.
    Library(u64, u64, Given),
    /// The program was started, for this reason of `REASONS`, with this terminal.
    Started(&'static str, Box<Memory>),
    /// The terminal as it is.
    Tables(Box<Memory>),
    /// A record was handed in, and got this answer.
    HandedIn(Vec<u8>, Answer),
    /// A record was taken.
    Taken(Outcome),
    /// A record was judged at once.
    Judged(Outcome),
    /// The clear button.
    Cleared,
    /// The tables were stored; the sum of their bytes.
    Stores(Chain),
    /// The program refused a record itself, for this reason of `WHYS`.
    TurnedAway(Vec<u8>, &'static str),
    /// So many entries were not written; the queue after them.
    LeftOut(u64, Box<Waiting>),
    /// So many bytes of a last line were cut off.
    Torn(u64),
    /// The program ended in order.
    Stopped,
    /// The last line of a file that is full, with its number.
    End(u64),
}

/// An entry of a journal.
#[derive(Clone, Debug, PartialEq, Eq)]
pub struct Entry {
    /// Its number.
    pub number: u64,
    /// The machine's clock, in milliseconds since 1970.
    pub time: i64,
    /// What it says.
    pub what: What,
}

/// A line that could be read: the entry, the text that is chained, and the chain.
pub struct Line<'a> {
    /// What it says.
    pub entry: Entry,
    /// The line up to the space before the chain.
    pub text: &'a str,
    /// Its chain.
    pub chain: Chain,
}

/// Reads a line without its line feed.
pub fn read(line: &[u8]) -> Result<Line<'_>, String> {
    if let Some(place) = line.iter().position(|byte| !(b' '..=b'~').contains(byte)) {
        return Err(format!("byte {place} is {}, which is no letter of a journal", line[place]));
    }
    let line = std::str::from_utf8(line).map_err(|_| "is no text")?;
    let (text, chain) = line.rsplit_once(' ').ok_or("is no entry: it has one field")?;
    let chain = sum("the chain", chain)?;
    let mut fields = Fields(text.split(' '));
    let number = fields.number("NUMBER")?;
    let time = time(fields.next("TIME")?)?;
    let clock = fields.next("CLOCK")?;
    let kind = fields.next("KIND")?;
    let what = fields.what(kind, clock)?;
    match fields.0.next() {
        Some(more) => Err(format!("'{}' stands after the fields of {kind}", short(more))),
        None => Ok(Line { entry: Entry { number, time, what }, text, chain }),
    }
}

/// The number of the file that begins with this line, where it is a `begin`.
pub fn file_number(line: &[u8]) -> Option<u64> {
    match read(line).ok()?.entry.what {
        What::Begin(file, _) => Some(file),
        _ => None,
    }
}

/// The beginning of a field, for a message.
fn short(text: &str) -> String {
    match text.get(..40) {
        Some(begin) if text.len() > 40 => format!("{begin}.."),
        _ => text.into(),
    }
}

/// The fields that are left of a line.
struct Fields<'a>(std::str::Split<'a, char>);

impl<'a> Fields<'a> {
    fn next(&mut self, name: &str) -> Result<&'a str, String> {
        let field = self.0.next().ok_or_else(|| format!("{name} is missing"))?;
        match field.is_empty() {
            true => Err(format!("{name} is empty")),
            false => Ok(field),
        }
    }

    fn number<T: TryFrom<u64>>(&mut self, name: &str) -> Result<T, String> {
        number(name, self.next(name)?)
    }

    fn bytes(&mut self, name: &str) -> Result<Vec<u8>, String> {
        bytes(name, self.next(name)?)
    }

    /// The fields of a kind. A clock is there for those that give the library one.
    fn what(&mut self, kind: &str, clock: &str) -> Result<What, String> {
        let judged = matches!(kind, "taken" | "judged");
        if judged != (clock != "-") {
            let expected = if judged { "is missing" } else { "is of no use" };
            return Err(format!("CLOCK '{}' {expected} in {kind}", short(clock)));
        }
        Ok(match kind {
            "begin" => {
                let format = self.next("FORMAT")?;
                if format != FORMAT {
                    return Err(format!("the format is '{}', and this command reads {FORMAT}", short(format)));
                }
                What::Begin(self.number("FILE")?, sum("PREVIOUS", self.next("PREVIOUS")?)?)
            }
            "library" => {
                let (identity, capacity) = (self.number("IDENTITY")?, self.number("CAPACITY")?);
                What::Library(identity, capacity, Given { creds: self.bytes("CREDS")?, aces: self.bytes("ACES")? })
            }
            "started" => What::Started(one_of("REASON", self.next("REASON")?, &REASONS)?, self.memory()?),
            "tables" => What::Tables(self.memory()?),
            "handed-in" => {
                let record = self.record()?;
                What::HandedIn(record, Answer(self.number("ANSWER")?))
            }
            "taken" => What::Taken(self.outcome(clock)?),
            "judged" => What::Judged(self.outcome(clock)?),
            "cleared" => What::Cleared,
            "stores" => What::Stores(sum("SUM", self.next("SUM")?)?),
            "turned-away" => {
                let record = self.record()?;
                What::TurnedAway(record, one_of("WHY", self.next("WHY")?, &WHYS)?)
            }
            "left-out" => What::LeftOut(self.number("COUNT")?, Box::new(self.waiting()?)),
            "torn" => What::Torn(self.number("COUNT")?),
            "stopped" => What::Stopped,
            "end" => What::End(self.number("FILE")?),
            other => return Err(format!("'{}' is no kind of an entry", short(other))),
        })
    }

    /// SENDER and RECORD, which name the same sender.
    fn record(&mut self) -> Result<Vec<u8>, String> {
        let sender: u16 = self.number("SENDER")?;
        let record = self.bytes("RECORD")?;
        match Header::read(&record).map(|header| header.sender) {
            Some(other) if other != sender => Err(format!("SENDER is {sender}, and the record's is {other}")),
            _ => Ok(record),
        }
    }

    fn outcome(&mut self, clock: &str) -> Result<Outcome, String> {
        let (clock, record) = (number("CLOCK", clock)?, self.record()?);
        Ok(Outcome {
            clock,
            record,
            answer: Answer(self.number("ANSWER")?),
            permission: Permission(self.number("PERMISSION")?),
        })
    }

    fn memory(&mut self) -> Result<Box<Memory>, String> {
        let tables = Tables::from_bytes(&padded("TABLES", self.bytes("TABLES")?)?);
        Ok(Box::new(Memory { tables, waiting: self.waiting()? }))
    }

    fn waiting(&mut self) -> Result<Waiting, String> {
        Ok(Waiting { bytes: padded("WAITING", self.bytes("WAITING")?)? })
    }
}

/// Digits alone, without zeros in front, of a number that fits.
fn number<T: TryFrom<u64>>(name: &str, text: &str) -> Result<T, String> {
    let plain = text.bytes().all(|digit| digit.is_ascii_digit()) && (text == "0" || !text.starts_with('0'));
    let value = text.parse::<u64>().ok().filter(|_| plain).and_then(|value| T::try_from(value).ok());
    value.ok_or_else(|| format!("{name} '{}' is no number that it may be", short(text)))
}

fn digit(byte: u8) -> Option<u8> {
    match byte {
        b'0'..=b'9' => Some(byte - b'0'),
        b'a'..=b'f' => Some(byte - b'a' + 10),
        _ => None,
    }
}

/// Bytes in small hexadecimal digits; `-` is none.
fn bytes(name: &str, text: &str) -> Result<Vec<u8>, String> {
    if text == "-" {
        return Ok(Vec::new());
    }
    let pair = |pair: &[u8]| match pair {
        [high, low] => Some(digit(*high)? << 4 | digit(*low)?),
        _ => None,
    };
    let bytes: Option<Vec<u8>> = text.as_bytes().chunks(2).map(pair).collect();
    bytes.ok_or_else(|| format!("{name} '{}' is not in small hexadecimal digits, two for each byte", short(text)))
}

fn sum(name: &str, text: &str) -> Result<Chain, String> {
    let sum: Option<Chain> =
        text.as_bytes().try_into().ok().filter(|sum: &Chain| sum.iter().all(|&byte| digit(byte).is_some()));
    // What stands there is not quoted: the file may be no journal, but one with keys.
    sum.ok_or_else(|| format!("{name} is no sum of 64 small hexadecimal digits"))
}

/// Bytes with the zeros that are not written.
fn padded<const N: usize>(name: &str, bytes: Vec<u8>) -> Result<[u8; N], String> {
    match bytes.len() {
        0 => return Err(format!("{name} has no byte")),
        length if length > N => return Err(format!("{name} has {length} bytes, and no more than {N} are there")),
        length if length > 1 && bytes[length - 1] == 0 => return Err(format!("{name} has zeros at its end")),
        _ => {}
    }
    let mut all = [0; N];
    all[..bytes.len()].copy_from_slice(&bytes);
    Ok(all)
}

fn one_of(name: &str, text: &str, all: &[(&'static str, &str)]) -> Result<&'static str, String> {
    let found = all.iter().find(|(word, _)| *word == text);
    found.map(|(word, _)| *word).ok_or_else(|| format!("{name} '{}' is not known", short(text)))
}

/// `2026-11-18T06:12:07.500Z` in milliseconds since 1970.
fn time(text: &str) -> Result<i64, String> {
    let form = b"0000-00-00T00:00:00.000Z";
    let fits = |(&byte, &sign): (&u8, &u8)| if sign == b'0' { byte.is_ascii_digit() } else { byte == sign };
    let well = text.len() == form.len() && text.as_bytes().iter().zip(form).all(fits);
    let part = |from: usize, to: usize| text[from..to].parse::<u32>().unwrap_or(u32::MAX);
    let moment = well.then(|| {
        let date = NaiveDate::from_ymd_opt(part(0, 4) as i32, part(5, 7), part(8, 10))?;
        date.and_hms_milli_opt(part(11, 13), part(14, 16), part(17, 19), part(20, 23))
    });
    let moment = moment.flatten().map(|moment| moment.timestamp_millis());
    moment.ok_or_else(|| format!("TIME '{}' is no time such as 2026-11-18T06:12:07.500Z", short(text)))
}

#[cfg(test)]
mod tests {
    use super::*;

    const CHAIN: &str = "64254e920cc03870171c6a41f6433d4a612771bb2744f8d064187b46752bce2f";

    fn said(text: &str) -> Result<What, String> {
        read(format!("{text} {CHAIN}").as_bytes()).map(|line| line.entry.what)
    }

    #[test]
    fn fields_of_a_line() {
        let text = format!("9 2026-11-18T06:12:07.501Z 1794982327 taken 7 52400007 8 0 {CHAIN}");
        let line = read(text.as_bytes()).ok().unwrap();
        assert_eq!((line.entry.number, line.entry.time), (9, 1_794_982_327_501));
        let record = vec![0x52, 0x40, 0, 7];
        let outcome =
            Outcome { clock: 1_794_982_327, record, answer: Answer::NOT_PERMITTED, permission: Permission::NONE };
        assert_eq!(line.entry.what, What::Taken(outcome));
        assert_eq!(said("1 2026-11-18T06:12:07.501Z - torn 17"), Ok(What::Torn(17)));
    }

    #[test]
    fn what_is_no_line() {
        let at = "2026-11-18T06:12:07.501Z";
        for (text, error) in [
            (format!("01 {at} - stopped"), "NUMBER '01' is no number"),
            (format!("18446744073709551616 {at} - stopped"), "NUMBER '18446744073709551616' is no number"),
            (format!("+1 {at} - stopped"), "NUMBER '+1'"),
            (format!("1 {at}  stopped"), "CLOCK is empty"),
            ("1 2026-13-18T06:12:07.501Z - stopped".into(), "TIME '2026-13-18T06:12:07.501Z' is no time"),
            ("1 2026-11-18T06:12:07Z - stopped".into(), "TIME"),
            (format!("1 {at} 5 stopped"), "CLOCK '5' is of no use in stopped"),
            (format!("1 {at} - taken 7 52400007 8 0"), "CLOCK '-' is missing in taken"),
            (format!("1 {at} 4294967296 taken 7 52400007 8 0"), "CLOCK '4294967296' is no number"),
            (format!("1 {at} 5 taken 8 52400007 8 0"), "SENDER is 8, and the record's is 7"),
            (format!("1 {at} 5 taken 7 5240000 8 0"), "RECORD '5240000' is not in small"),
            (format!("1 {at} 5 taken 7 52400007 256 0"), "ANSWER '256'"),
            (format!("1 {at} - stopped now"), "'now' stands after the fields of stopped"),
            (format!("1 {at} - begins"), "'begins' is no kind"),
            (format!("1 {at} - tables - 00"), "TABLES has no byte"),
            (format!("1 {at} - tables 0100 00"), "TABLES has zeros at its end"),
            (format!("1 {at} - tables {}01 00", "00".repeat(2172)), "TABLES has 2173 bytes"),
            (format!("1 {at} - started why 01 00"), "REASON 'why' is not known"),
            (format!("1 {at} - begin journal-2 1 {CHAIN}"), "the format is 'journal-2'"),
        ] {
            let found = said(&text).unwrap_err();
            assert!(found.starts_with(error), "{text}: {found}");
        }
        assert!(read(b"stopped").is_err() && read(b"").is_err());
        assert!(read(format!("1 {at} - stopped {}", CHAIN.to_uppercase()).as_bytes()).is_err());
        assert_eq!(read(b"1 \xff").err().unwrap(), "byte 2 is 255, which is no letter of a journal");
    }
}
