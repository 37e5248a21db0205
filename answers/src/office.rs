//! The office's JSON of access rows (U6), read and written. What is read is held
//! to what the library writes of the same rows.
//!
//! A row may have the keys `first` and `last` in addition to U6's own: a season, which the
//! library's text leaves out. They are an extension of this command.

use std::fmt;

use serde::de::{Deserialize, Deserializer, Error as _, MapAccess, SeqAccess, Visitor};
use serde_json::{Map, Value};
use tillerclover::{Ace, Connection, Period, Permission, Role, Subject, Terminal, Wildcards};

use crate::list::{not_storable, refusal};
use crate::parse::{did_you_mean, resource};
use crate::times::{self, Day};

/// The keys of the extension.
const SEASON: [&str; 2] = ["first", "last"];

/// JSON in which no key occurs twice.
struct Strict(Value);

impl<'a> Deserialize<'a> for Strict {
    fn deserialize<D: Deserializer<'a>>(deserializer: D) -> Result<Strict, D::Error> {
        deserializer.deserialize_any(StrictVisitor).map(Strict)
    }
}

struct StrictVisitor;

impl<'a> Visitor<'a> for StrictVisitor {
    type Value = Value;

    fn expecting(&self, f: &mut fmt::Formatter) -> fmt::Result {
        f.write_str("JSON")
    }

    fn visit_bool<E>(self, value: bool) -> Result<Value, E> {
        Ok(value.into())
    }

    fn visit_i64<E>(self, value: i64) -> Result<Value, E> {
        Ok(value.into())
    }

    fn visit_u64<E>(self, value: u64) -> Result<Value, E> {
        Ok(value.into())
    }

    fn visit_f64<E>(self, value: f64) -> Result<Value, E> {
        Ok(value.into())
    }

    fn visit_str<E>(self, value: &str) -> Result<Value, E> {
        Ok(value.into())
    }

    fn visit_unit<E>(self) -> Result<Value, E> {
        Ok(Value::Null)
    }

    fn visit_seq<A: SeqAccess<'a>>(self, mut items: A) -> Result<Value, A::Error> {
        let mut array = Vec::new();
        while let Some(Strict(item)) = items.next_element()? {
            array.push(item);
        }
        Ok(array.into())
    }

    fn visit_map<A: MapAccess<'a>>(self, mut entries: A) -> Result<Value, A::Error> {
        let mut object = Map::new();
        while let Some((key, Strict(value))) = entries.next_entry::<String, Strict>()? {
            if object.contains_key(&key) {
                return Err(A::Error::custom(format!("the key \"{key}\" stands twice")));
            }
            object.insert(key, value);
        }
        Ok(object.into())
    }
}

/// The rows of a text, and how many of them have a season. The text is what the library writes of them.
pub fn read(text: &str) -> Result<(Vec<Ace>, usize), String> {
    let Strict(list) = serde_json::from_str(text).map_err(|error| format!("no JSON: {error}"))?;
    let mut list = object(&list, &["aclist2"])?.clone();
    let rows = list.get_mut("aclist2").and_then(Value::as_array_mut).ok_or("\"aclist2\" is no array")?;
    let in_row = |place: usize| move |error: String| format!("row {}: {error}", place + 1);
    let mut read = Vec::new();
    for (place, row) in rows.iter().enumerate() {
        read.push(access_row(row).map_err(in_row(place))?);
    }
    let mut seasons = 0;
    for row in rows.iter_mut().filter_map(Value::as_object_mut) {
        seasons += usize::from(SEASON.map(|key| row.remove(key).is_some()) != [false; 2]);
    }
    compare(&Value::Object(list), &read)?;
    Ok((read, seasons))
}

/// An object with these keys, of which some may be missing.
fn object<'a>(value: &'a Value, keys: &[&str]) -> Result<&'a Map<String, Value>, String> {
    let object = value.as_object().ok_or_else(|| format!("{value} is no object with {}", keys.join(", ")))?;
    match object.keys().find(|key| !keys.contains(&key.as_str())) {
        Some(key) => {
            let known: Vec<String> = keys.iter().map(|key| key.to_string()).collect();
            Err(format!("unknown key \"{key}\"{}; there are {}", did_you_mean(key, &known), known.join(", ")))
        }
        None => Ok(object),
    }
}

fn number(object: &Map<String, Value>, key: &str, most: u64) -> Result<u64, String> {
    let value = object.get(key).ok_or_else(|| format!("\"{key}\" is missing"))?;
    value.as_u64().filter(|&number| number <= most).ok_or_else(|| format!("\"{key}\" is 0 to {most}, not {value}"))
}

fn string<'a>(value: &'a Value, key: &str) -> Result<&'a str, String> {
    value.as_str().ok_or_else(|| format!("\"{key}\" is a text in quotes, not {value}"))
}

fn access_row(value: &Value) -> Result<Ace, String> {
    let row = object(value, &["aceid", "subject", "resources", "permission", "first", "last"])?;
    let mut ace = Ace {
        number: number(row, "aceid", u16::MAX.into())? as u16,
        subject: subject(row.get("subject").ok_or("\"subject\" is missing")?)?,
        permission: Permission(number(row, "permission", Permission::ALL.number().into())? as u8),
        ..Ace::default()
    };
    let resources = row.get("resources").and_then(Value::as_array).ok_or("\"resources\" is no array")?;
    for one in resources {
        add(&mut ace, one)?;
    }
    let second = |key: &str, day: Day, otherwise: u32| match row.get(key) {
        None => Ok(otherwise),
        Some(Value::String(time)) => times::read(time, day).map_err(|error| format!("\"{key}\": {error}")),
        Some(_) => number(row, key, u32::MAX.into()).map(|second| second as u32),
    };
    ace.period = Period { first: second("first", Day::Begins, 0)?, last: second("last", Day::Ends, u32::MAX)? };
    Ok(ace)
}

fn subject(value: &Value) -> Result<Subject, String> {
    let subject = object(value, &["conntype", "uuid", "authority", "role"])?;
    let text = |key: &str| subject.get(key).map(|value| string(value, key)).transpose();
    if let Some(name) = text("conntype")? {
        let connection = Connection::named(name);
        return connection.map(Subject::Connection).ok_or_else(|| format!("unknown connection \"{name}\""));
    }
    if let Some(uuid) = text("uuid")? {
        return uuid.parse().map(Subject::Uuid).map_err(|error| format!("\"uuid\": {error}"));
    }
    let number = |key: &str| -> Result<u16, String> {
        let digits = text(key)?.unwrap_or("0");
        digits.parse().map_err(|_| format!("\"{key}\" is \"0\" to \"65535\", not \"{digits}\""))
    };
    if !subject.contains_key("role") {
        return Err("a subject has conntype, uuid, or authority and role".into());
    }
    Ok(Subject::Role(Role { authority: number("authority")?, number: number("role")? }))
}

fn add(row: &mut Ace, value: &Value) -> Result<(), String> {
    let one = object(value, &["href", "wc"])?;
    if let Some(name) = one.get("href") {
        row.resources.0 |= tillerclover::Set::of(&[resource(string(name, "href")?)?]).0;
        return Ok(());
    }
    let sign = one.get("wc").ok_or("a resource has href or wc")?;
    let sign = string(sign, "wc")?;
    row.wildcards = row.wildcards | Wildcards::written(sign).ok_or_else(|| format!("unknown wildcard \"{sign}\""))?;
    Ok(())
}

/// Holds a list without seasons to the library's text of its rows.
fn compare(read: &Value, rows: &[Ace]) -> Result<(), String> {
    if rows.len() > Ace::CAPACITY {
        return Err(format!("{} rows, and a terminal holds {}", rows.len(), Ace::CAPACITY));
    }
    let text = library_text(rows)?;
    let written: Value = serde_json::from_str(&text).map_err(|error| format!("the library's text: {error}"))?;
    match difference("", read, &written) {
        None => Ok(()),
        Some(difference) => Err(difference),
    }
}

/// What the library writes of rows, as if they held at every second.
fn library_text(rows: &[Ace]) -> Result<String, String> {
    let mut terminal = Terminal::new();
    let rows: Vec<Ace> = rows.iter().map(|row| Ace { period: Period::ALWAYS, ..*row }).collect();
    terminal.tables.set_aces(&rows);
    terminal.access_list().map_err(|answer| {
        let list: Vec<u8> = rows.iter().flat_map(|row| row.body()).collect();
        match not_storable(&list) {
            Some(tested) => format!("row {}: {}", tested.row, refusal(&list, tested)),
            None => answer.to_string(),
        }
    })
}

/// The first place at which two texts differ.
fn difference(place: &str, read: &Value, written: &Value) -> Option<String> {
    match (read, written) {
        (Value::Object(one), Value::Object(other)) => {
            let keys = one.keys().chain(other.keys().filter(|key| !one.contains_key(*key)));
            keys.map(|key| (key, one.get(key), other.get(key))).find_map(|(key, one, other)| {
                part(&format!("{place}{}{key}", if place.is_empty() { "" } else { "." }), one, other)
            })
        }
        (Value::Array(one), Value::Array(other)) => (0..one.len().max(other.len()))
            .find_map(|index| part(&format!("{place}[{index}]"), one.get(index), other.get(index))),
        _ if read == written => None,
        _ => Some(format!("{place} is {read}, and the library writes {written}")),
    }
}

fn part(place: &str, read: Option<&Value>, written: Option<&Value>) -> Option<String> {
    match (read, written) {
        (Some(read), Some(written)) => difference(place, read, written),
        (Some(read), None) => Some(format!("{place} is {read}, and the library writes nothing there")),
        (None, Some(written)) => Some(format!("{place} is missing, and the library writes {written}")),
        (None, None) => None,
    }
}

/// The library's text of rows with their seasons, by the extension.
pub fn with_seasons(rows: &[Ace]) -> Result<String, String> {
    const FRAME: (&str, &str) = ("{\"aclist2\":[", "]}");
    let mut texts = Vec::new();
    for row in rows {
        let text = library_text(&[*row])?;
        let inner = text.strip_prefix(FRAME.0).and_then(|text| text.strip_suffix("}]}"));
        let inner = inner.ok_or_else(|| format!("the library's text has another form: {text}"))?;
        let second = |key: &str, second: u32, none: u32| match second == none {
            true => String::new(),
            false => format!(",\"{key}\":\"{}\"", times::utc(second)),
        };
        let Period { first, last } = row.period;
        texts.push(format!("{inner}{}{}}}", second("first", first, 0), second("last", last, u32::MAX)));
    }
    Ok(format!("{}{}{}", FRAME.0, texts.join(","), FRAME.1))
}

#[cfg(test)]
mod tests {
    use super::*;
    use tillerclover::Resource;

    const ROW: &str =
        r#"{"aceid":1,"subject":{"conntype":"anon-clear"},"resources":[{"href":"/weight"}],"permission":2}"#;

    fn list(row: &str) -> String {
        format!("{{\"aclist2\":[{row}]}}")
    }

    #[test]
    fn the_rows_of_a_text() {
        let (rows, seasons) = read(&list(ROW)).unwrap();
        assert_eq!((rows[0].number, rows[0].permission, seasons), (1, Permission::RETRIEVE, 0));
        assert!(rows[0].resources.contains(Resource::WEIGHT));
        let spaced = list(ROW).replace(',', " ,\n ");
        assert_eq!(read(&spaced).unwrap().0, rows);
        let season = list(&ROW.replace("2}", "2,\"first\":\"2026-07-01\",\"last\":1790812799}"));
        let (rows, seasons) = read(&season).unwrap();
        assert_eq!((rows[0].period, seasons), (Period { first: 1_782_864_000, last: 1_790_812_799 }, 1));
        let again = with_seasons(&rows).unwrap();
        assert_eq!(read(&again).unwrap().0, rows);
    }

    #[test]
    fn what_is_wrong_is_named() {
        for (row, error) in [
            (ROW.replace("\"aceid\":1", "\"aceid\":1,\"aceid\":2"), "the key \"aceid\" stands twice"),
            (ROW.replace("aceid", "aceld"), "row 1: unknown key \"aceld\"; did you mean aceid?"),
            (ROW.replace(":1,", ":70000,"), "\"aceid\" is 0 to 65535, not 70000"),
            (ROW.replace(":1,", ":0,"), "row 1: the number is 0"),
            (ROW.replace(":2}", ":32}"), "\"permission\" is 0 to 31"),
            (ROW.replace("/weight", "/wieght"), "unknown resource '/wieght'; did you mean /weight?"),
            (ROW.replace("anon-clear", "ANON-CLEAR"), "is \"ANON-CLEAR\", and the library writes \"anon-clear\""),
            (
                ROW.replace("{\"conntype\":\"anon-clear\"}", "{\"role\":\"7\"}"),
                "aclist2[0].subject.authority is missing",
            ),
            (
                ROW.replace("[{", "[{\"wc\":\"+\"},{"),
                "aclist2[0].resources[0].wc is \"+\", and the library writes nothing",
            ),
            (format!("{ROW},{ROW}"), "row 2: repeats number 1 of row 1"),
            (
                // The first row gives too much, which keeps no list from being made.
                format!("{},{ROW}", ROW.replace("/weight", "/oic/sec/acl2").replace(":2}", ":4}")),
                "row 2: repeats number 1 of row 1",
            ),
        ] {
            let said = read(&list(&row)).unwrap_err();
            assert!(said.contains(error), "{row}: {said}");
        }
        assert!(read("{\"aclist2\":[").unwrap_err().starts_with("no JSON: EOF"));
        assert!(read("[]").unwrap_err().contains("is no object with aclist2"));
    }
}
