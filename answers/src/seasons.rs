//! The seasons of access rows: which are over, which end soon, which are to come,
//! and by which row a season is renewed.

use std::path::Path;

use serde_json::{json, Value};
use tillerclover::{Ace, Period, Terminal};

use crate::colour::{paint, Tone};
use crate::error::name;
use crate::marks::DAY;
use crate::report::{many, table, Report, Status};
use crate::show;
use crate::stored::Stored;
use crate::{times, words};

/// Where the clock is in a season.
#[derive(Clone, Copy, Debug, PartialEq, Eq)]
pub enum Place {
    /// It ended that many seconds ago.
    Over(u32),
    /// It holds for that many seconds more; none where it has no end.
    Now(Option<u32>),
    /// It begins in that many seconds.
    ToCome(u32),
}

/// A row with a season.
#[derive(Clone, Copy, Debug, PartialEq, Eq)]
pub struct Season {
    /// The row.
    pub row: Ace,
    /// Where the clock is in it.
    pub place: Place,
    /// The number of the row that gives the same later.
    pub renewed: Option<u16>,
}

impl Place {
    /// The season of a period.
    pub fn of(period: Period, clock: u32) -> Place {
        match (period.last.checked_sub(clock), period.first.checked_sub(clock)) {
            (None, _) => Place::Over(clock - period.last),
            (_, Some(first)) if first > 0 => Place::ToCome(first),
            (Some(_), _) if period.last == u32::MAX => Place::Now(None),
            (Some(left), _) => Place::Now(Some(left)),
        }
    }

    /// Whether the season ends within that many seconds from now on.
    pub fn ends_within(self, seconds: u32) -> bool {
        matches!(self, Place::Now(Some(left)) if left < seconds)
    }

    /// In words.
    pub fn words(self) -> String {
        let days = |seconds: u32| match seconds / DAY {
            0 => "less than a day".into(),
            days => many(days as usize, "day"),
        };
        match self {
            Place::Over(past) => format!("over since {}", days(past)),
            Place::Now(Some(left)) => format!("ends in {}", days(left)),
            Place::Now(None) => "has begun, and has no end".into(),
            Place::ToCome(ahead) => format!("begins in {}", days(ahead)),
        }
    }
}

/// The rows with a season, those that end first before the others.
pub fn seasons(terminal: &Terminal, clock: u32) -> Vec<Season> {
    let rows = terminal.tables.aces();
    let mut found: Vec<Season> = rows
        .iter()
        .filter(|row| row.period != Period::ALWAYS)
        .map(|row| Season { row: *row, place: Place::of(row.period, clock), renewed: renewed(&rows, row) })
        .collect();
    found.sort_by_key(|season| (season.row.period.last, season.row.period.first, season.row.number));
    found
}

/// The row that holds after this one ends, for the same subject and resources, with all its letters.
fn renewed(rows: &[Ace], row: &Ace) -> Option<u16> {
    let later = |other: &&Ace| {
        other.period.last > row.period.last
            && other.subject == row.subject
            && (other.resources, other.wildcards) == (row.resources, row.wildcards)
            && other.permission.contains(row.permission)
    };
    rows.iter().filter(later).min_by_key(|other| other.period.first).map(|other| other.number)
}

/// The seasons of sound tables. With `within`, only those that end in that time, and status 1 where one is not renewed.
pub fn report(path: &Path, stored: &Stored, clock: u32, within: Option<u32>) -> Report {
    if let Some(report) = show::unless_sound(path, stored) {
        return report;
    }
    let mut found = seasons(&stored.terminal, clock);
    found.retain(|season| within.is_none_or(|seconds| season.place.ends_within(seconds)));
    let ending = within.is_some() && found.iter().any(|season| season.renewed.is_none());
    let kind = if within.is_some() { "seasons that end soon" } else { "seasons" };
    let text = match found.is_empty() {
        true => format!("no {kind} in {} at {}\n", name(path), times::word(clock)),
        false => {
            let lines: Vec<String> = found.iter().map(line).collect();
            let head = format!("{kind} in {} at {}\n\n", name(path), times::word(clock));
            head + &table(&words::ace_head(), &lines)
        }
    };
    let json = json!({
        "file": path.display().to_string(),
        "clock": clock,
        "seasons": found.iter().map(season_json).collect::<Vec<_>>(),
    });
    Report::new(text, json, Status::of(!ending))
}

fn line(season: &Season) -> String {
    let renewed = season.renewed.map_or(String::new(), |row| format!("; row {row} gives it later"));
    format!("{}\t{}", words::ace_columns(&season.row), paint(Tone::Mark, &(season.place.words() + &renewed)))
}

fn season_json(season: &Season) -> Value {
    let place = match season.place {
        Place::Over(_) => "over",
        Place::Now(_) => "now",
        Place::ToCome(_) => "to come",
    };
    json!({ "row": words::ace_json(&season.row), "place": place, "words": season.place.words(), "renewed": season.renewed })
}

#[cfg(test)]
mod tests {
    use super::*;

    #[test]
    fn places() {
        let of = |first, last, clock| Place::of(Period { first, last }, clock);
        assert_eq!(of(10, 20, 9), Place::ToCome(1));
        assert_eq!(of(10, 20, 10), Place::Now(Some(10)));
        assert_eq!(of(10, 20, 20), Place::Now(Some(0)));
        assert_eq!(of(10, 20, 21), Place::Over(1));
        assert_eq!(of(10, u32::MAX, 21), Place::Now(None));
        assert!(of(10, 20, 20).ends_within(1) && !of(10, 20, 10).ends_within(10) && !of(10, 20, 21).ends_within(99));
        assert_eq!(Place::Now(Some(2 * DAY + 5)).words(), "ends in 2 days");
        assert_eq!(Place::Over(5).words(), "over since less than a day");
    }
}
