//! Seconds of the terminal's clock as dates. The clock counts from 1970 in UTC,
//! as the system's does; people read and write it in a zone.

use std::cell::Cell;
use std::str::FromStr;

use chrono::{DateTime, FixedOffset, LocalResult, NaiveDate, NaiveDateTime, NaiveTime, Offset, TimeZone, Utc};
use chrono_tz::Tz;
use tillerclover::Period;

/// Where people read the clock.
#[derive(Clone, Copy, Debug, PartialEq, Eq)]
pub enum Zone {
    /// A named zone; UTC is one.
    Named(Tz),
    /// So far from UTC all the year.
    Fixed(FixedOffset),
}

thread_local! {
    static ZONE: Cell<Zone> = const { Cell::new(Zone::UTC) };
    static NOW: Cell<Option<u32>> = const { Cell::new(None) };
}

impl Zone {
    /// UTC.
    pub const UTC: Zone = Zone::Named(Tz::UTC);

    /// Makes it the zone of all that this thread reads and writes.
    pub fn choose(self) {
        ZONE.set(self);
    }

    /// The zone chosen last; UTC before that.
    pub fn chosen() -> Zone {
        ZONE.get()
    }

    /// Its name, for the heads of columns.
    pub fn name(self) -> String {
        match self {
            Zone::Named(zone) => zone.name().into(),
            Zone::Fixed(offset) => offset.to_string(),
        }
    }

    fn at(self, second: u32) -> Option<DateTime<FixedOffset>> {
        match self {
            Zone::Named(zone) => {
                let time = zone.timestamp_opt(second.into(), 0).single()?;
                Some(time.with_timezone(&time.offset().fix()))
            }
            Zone::Fixed(offset) => offset.timestamp_opt(second.into(), 0).single(),
        }
    }

    fn seconds(self, moment: &NaiveDateTime) -> LocalResult<i64> {
        match self {
            Zone::Named(zone) => zone.from_local_datetime(moment).map(|time| time.timestamp()),
            Zone::Fixed(offset) => offset.from_local_datetime(moment).map(|time| time.timestamp()),
        }
    }
}

impl FromStr for Zone {
    type Err = String;

    /// A name of the tz database, or an offset as +02:00.
    fn from_str(text: &str) -> Result<Zone, String> {
        let named = text.parse().map(Zone::Named).ok();
        named.or_else(|| offset(text).map(Zone::Fixed)).ok_or_else(|| {
            format!("'{text}' is no time zone: write a name such as Europe/Berlin, an offset such as +02:00, or UTC")
        })
    }
}

fn offset(text: &str) -> Option<FixedOffset> {
    let digits: String = text.get(1..)?.chars().filter(|&letter| letter != ':').collect();
    if !matches!(digits.len(), 2 | 4) || !digits.bytes().all(|digit| digit.is_ascii_digit()) {
        return None;
    }
    let (hours, minutes): (i32, i32) = (digits[..2].parse().ok()?, format!("0{}", &digits[2..]).parse().ok()?);
    let seconds = (hours * 60 + minutes) * 60;
    match text.as_bytes()[0] {
        b'+' => FixedOffset::east_opt(seconds),
        b'-' => FixedOffset::west_opt(seconds),
        _ => None,
    }
}

/// Which second of a day represents the day, and which of an hour that the clock shows twice.
#[derive(Clone, Copy, Debug, PartialEq, Eq)]
pub enum Day {
    /// Its first.
    Begins,
    /// Its last.
    Ends,
}

/// The second that a text names: a number, a date, a date with a time, both perhaps with an offset, or `now`.
pub fn read(text: &str, day: Day) -> Result<u32, String> {
    read_in(Zone::chosen(), text, day)
}

fn read_in(zone: Zone, text: &str, day: Day) -> Result<u32, String> {
    if text == "now" {
        return now();
    }
    if !text.is_empty() && text.bytes().all(|digit| digit.is_ascii_digit()) {
        return text.parse().map_err(|_| format!("'{text}' is past the clock's last second, {}", u32::MAX));
    }
    let (local, zone) = split(text, zone);
    let moment = moment(&local, day).ok_or_else(|| {
        format!("'{text}' is no time: write seconds, 2026-07-01, 2026-07-01T06:00:00, 2026-07-01T06:00+02:00 or now")
    })?;
    let seconds = match (zone.seconds(&moment), day) {
        (LocalResult::None, _) => {
            return Err(format!("'{text}' is no time in {}: the clock is put forward then", zone.name()))
        }
        (LocalResult::Single(seconds), _) | (LocalResult::Ambiguous(seconds, _), Day::Begins) => seconds,
        (LocalResult::Ambiguous(_, seconds), Day::Ends) => seconds,
    };
    u32::try_from(seconds)
        .map_err(|_| format!("'{text}' is outside the clock, which goes from 1970-01-01 to 2106-02-07T06:28:15"))
}

/// A text without its offset, and the zone that this names.
fn split(text: &str, zone: Zone) -> (String, Zone) {
    if let Some(local) = text.strip_suffix('Z') {
        return (local.into(), Zone::UTC);
    }
    // A date has ten letters, and signs of its own.
    let sign = text.get(10..).and_then(|rest| rest.rfind(['+', '-']));
    let parts = sign.and_then(|place| Some((text.get(..10 + place)?, offset(text.get(10 + place..)?)?)));
    parts.map_or((text.into(), zone), |(local, offset)| (local.into(), Zone::Fixed(offset)))
}

fn moment(text: &str, day: Day) -> Option<NaiveDateTime> {
    let text = text.replace(' ', "T");
    if let Ok(date) = NaiveDate::parse_from_str(&text, "%Y-%m-%d") {
        let time = match day {
            Day::Begins => NaiveTime::from_hms_opt(0, 0, 0),
            Day::Ends => NaiveTime::from_hms_opt(23, 59, 59),
        };
        return time.map(|time| date.and_time(time));
    }
    let forms = ["%Y-%m-%dT%H:%M:%S", "%Y-%m-%dT%H:%M"];
    forms.iter().find_map(|form| NaiveDateTime::parse_from_str(&text, form).ok())
}

/// Says which second the word `now` means, for this thread.
pub fn set_now(second: Option<u32>) {
    NOW.set(second);
}

/// The second that the word `now` means.
pub fn now() -> Result<u32, String> {
    NOW.get().ok_or_else(|| "the time is not known here: write it out".into())
}

/// That many seconds: a number, or one with s, m, h, d or w after it.
pub fn duration(text: &str) -> Result<u32, String> {
    let end = text.find(|letter: char| !letter.is_ascii_digit()).unwrap_or(text.len());
    let unit = match &text[end..] {
        "" | "s" => 1,
        "m" => 60,
        "h" => 3600,
        "d" => 86_400,
        "w" => 7 * 86_400,
        _ => 0,
    };
    let seconds = text[..end].parse().ok().and_then(|count: u32| count.checked_mul(unit)).filter(|_| unit > 0);
    seconds.ok_or_else(|| format!("'{text}' is no time: write seconds, or 12h, 30d or 4w"))
}

/// A second as a date with a time, in one word; with its offset where the zone is another than UTC.
pub fn word(second: u32) -> String {
    word_in(Zone::chosen(), second)
}

fn word_in(zone: Zone, second: u32) -> String {
    let form = if zone == Zone::UTC { "%Y-%m-%dT%H:%M:%S" } else { "%Y-%m-%dT%H:%M:%S%:z" };
    zone.at(second).map_or(second.to_string(), |time| time.format(form).to_string())
}

/// A second in UTC, for programs.
pub fn utc(second: u32) -> String {
    Utc.timestamp_opt(second.into(), 0)
        .single()
        .map_or(second.to_string(), |time| time.format("%Y-%m-%dT%H:%M:%SZ").to_string())
}

/// A period in words.
pub fn period(period: Period) -> String {
    period_in(Zone::chosen(), period)
}

fn period_in(zone: Zone, period: Period) -> String {
    let Period { first, last } = period;
    let [begins, ends] = [(first, "T00:00:00"), (last, "T23:59:59")].map(|(second, edge)| short(zone, second, edge));
    match (first, last) {
        (0, u32::MAX) => "always".into(),
        (0, _) => format!("to {ends}"),
        (_, u32::MAX) => format!("from {begins}"),
        _ => format!("{begins} to {ends}"),
    }
}

/// A second by only its date where it begins or ends the day.
fn short(zone: Zone, second: u32, edge: &str) -> String {
    let local = zone.at(second).map(|time| time.format("%Y-%m-%dT%H:%M:%S").to_string()).unwrap_or_default();
    local.strip_suffix(edge).map(str::to_string).unwrap_or_else(|| word_in(zone, second))
}

#[cfg(test)]
mod tests {
    use super::*;

    fn zone(name: &str) -> Zone {
        name.parse().unwrap()
    }

    #[test]
    fn both_ways() {
        assert_eq!(read("2026-07-01", Day::Begins), Ok(1_782_864_000));
        assert_eq!(read("2026-09-30", Day::Ends), Ok(1_790_812_799));
        assert_eq!(read("2026-09-30 23:59:59", Day::Begins), Ok(1_790_812_799));
        assert_eq!(read(&word(u32::MAX), Day::Begins), Ok(u32::MAX));
        assert_eq!(period(Period { first: 1_782_864_000, last: 1_790_812_799 }), "2026-07-01 to 2026-09-30");
        assert_eq!(period(Period { first: 1_782_864_001, last: u32::MAX }), "from 2026-07-01T00:00:01");
        assert!(read("2026-13-01", Day::Begins).is_err());
        assert!(read("4294967296", Day::Begins).is_err());
        assert!(read("1969-12-31", Day::Begins).is_err());
    }

    #[test]
    fn durations() {
        assert_eq!(["90", "90s", "2h", "30d", "4w"].map(duration), [90, 90, 7200, 2_592_000, 2_419_200].map(Ok));
        assert!(["", "d", "30x", "-1d", "99999999w"].iter().all(|text| duration(text).is_err()));
    }

    #[test]
    fn offsets() {
        for text in
            ["2026-07-01T02:00+02:00", "2026-06-30T19:00:00-0500", "2026-07-01T00:00Z", "2026-07-01T05:30+05:30"]
        {
            assert_eq!(read(text, Day::Begins), Ok(1_782_864_000), "{text}");
        }
        assert_eq!(read("2026-09-30+02:00", Day::Ends), Ok(1_790_812_799 - 7200));
        assert!(read("2026-09-30T00:00+2", Day::Begins).is_err());
        assert!(zone("+02:00").name() == "+02:00" && "Berlin".parse::<Zone>().is_err());
    }

    #[test]
    fn a_day_ends_at_the_yards_midnight() {
        let berlin = zone("Europe/Berlin");
        let last = read_in(berlin, "2026-09-30", Day::Ends).unwrap();
        assert_eq!(last, 1_790_812_799 - 7200);
        assert_eq!(word_in(berlin, last), "2026-09-30T23:59:59+02:00");
        assert_eq!(read(&word_in(berlin, last), Day::Begins), Ok(last));
        assert_eq!(period_in(berlin, Period { first: 0, last }), "to 2026-09-30");
        // 2:30 comes twice on one day, and never on another.
        let twice = |day| read_in(berlin, "2026-10-25T02:30", day).unwrap();
        assert_eq!(twice(Day::Ends) - twice(Day::Begins), 3600);
        assert!(read_in(berlin, "2026-03-29T02:30", Day::Begins).is_err());
    }
}
