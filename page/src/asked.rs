//! A question, part by part. Whatever is missing or has another type is taken for
//! nothing, so that the report says what is wrong.

use std::path::Path;

use answers::error::Error;
use answers::names::Names;
use answers::stored::Stored;
use answers::times::{self, Day, Zone};
use answers::{hex, parse};
use serde_json::Value;
use tillerclover::{record, Given, Period};

/// A question and the bytes of a file.
pub struct Asked<'a> {
    /// What is asked.
    pub question: &'a Value,
    /// Of which bytes.
    pub file: &'a [u8],
}

impl Asked<'_> {
    /// Chooses the zone, the second that `now` means and the yard's names, for this question only.
    pub fn surroundings(&self) -> Result<(), Error> {
        let zone = self.question["zone"].as_str().unwrap_or("UTC");
        zone.parse::<Zone>().map_err(Error::new)?.choose();
        times::set_now(self.number("now"));
        self.names()
    }

    /// Chooses the yard's names, with the UUIDs of the tables if the file has some.
    fn names(&self) -> Result<(), Error> {
        let given = |error: String| Error::of(Path::new("the names"), error);
        let names = Names::read(self.text("names")).map_err(given)?;
        match Stored::of(self.file, Given::default()) {
            Ok(stored) => names.with(&stored.terminal.tables).map_err(given)?.choose(),
            Err(_) => names.choose(),
        }
        Ok(())
    }

    /// A text, or an empty one.
    pub fn text(&self, key: &str) -> &str {
        self.question[key].as_str().unwrap_or_default()
    }

    /// Whether it is true.
    pub fn flag(&self, key: &str) -> bool {
        self.question[key].as_bool().unwrap_or_default()
    }

    /// The texts of a list.
    pub fn texts(&self, key: &str) -> Vec<String> {
        self.all(key).iter().filter_map(Value::as_str).map(String::from).collect()
    }

    fn all(&self, key: &str) -> &[Value] {
        self.question[key].as_array().map(Vec::as_slice).unwrap_or_default()
    }

    /// A number that fits.
    pub fn number<T: TryFrom<u64>>(&self, key: &str) -> Option<T> {
        self.question[key].as_u64().and_then(|number| T::try_from(number).ok())
    }

    /// The numbers of a list that fit.
    pub fn numbers(&self, key: &str) -> Vec<u16> {
        self.all(key).iter().filter_map(Value::as_u64).filter_map(|number| u16::try_from(number).ok()).collect()
    }

    /// What the file is called.
    pub fn path(&self) -> &Path {
        Path::new(self.question["name"].as_str().unwrap_or("tables"))
    }

    /// Seconds, or a time in words.
    pub fn clock(&self) -> Result<u32, Error> {
        match &self.question["clock"] {
            Value::Number(number) => {
                self.number("clock").ok_or_else(|| Error::new(format!("clock: {number} is no second of the clock")))
            }
            other => times::read(other.as_str().unwrap_or("now"), Day::Begins)
                .map_err(|error| Error::new(format!("clock: {error}"))),
        }
    }

    /// The seconds between two.
    pub fn period(&self) -> Period {
        Period { first: self.number("first").unwrap_or(0), last: self.number("last").unwrap_or(u32::MAX) }
    }

    /// The tables of the file, which must not be damaged.
    pub fn stored(&self) -> Result<Stored, Error> {
        Stored::whole(self.path(), self.file, Given::default())
    }

    /// A second file, in digits.
    pub fn other(&self, key: &str) -> Result<Vec<u8>, Error> {
        hex::read(self.text(key)).map_err(Error::new)
    }

    /// The record that is asked about: in words, or by verb, resource and sender without a body.
    pub fn record(&self) -> Result<Vec<u8>, Error> {
        if self.question["record"].is_string() {
            return parse::one(self.text("record")).map_err(Error::new);
        }
        let verb = parse::verb(self.text("verb")).map_err(Error::new)?;
        let resource = parse::resource(self.text("resource")).map_err(Error::new)?;
        Ok(record(verb, resource, self.number("sender").unwrap_or_default(), &[]))
    }
}
