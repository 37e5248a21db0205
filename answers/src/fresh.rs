//! Whether files hold what a new terminal of this build holds and nothing else, for
//! the end of the maker's line: one line for each.

use std::path::{Path, PathBuf};

use serde_json::{json, Value};
use tillerclover::{Given, Terminal};

use crate::colour::verdict;
use crate::diff::changes;
use crate::error::{name, Error};
use crate::report::{columns, many, Report, Status};
use crate::stored::{Form, Stored};

/// What was found in a file.
#[derive(Clone, Debug, PartialEq, Eq)]
pub struct Found {
    /// The file.
    pub file: PathBuf,
    /// Its form, where it has one.
    pub form: Option<Form>,
    /// What is left over in it, or why it could not be read; none where it is fresh.
    pub left: Option<String>,
}

/// Looks at a file's bytes: the tables, the queue, and in a store the spare image.
pub fn look(file: &Path, bytes: &[u8], defaults: &Given) -> Found {
    let found = |form, left| Found { file: file.into(), form, left };
    match Stored::of(bytes, defaults.clone()) {
        Err(error) => found(None, Some(error)),
        Ok(stored) => found(Some(stored.form), left_over(&stored, defaults)),
    }
}

/// A file that could not be read.
pub fn unread(file: &Path, error: &Error) -> Found {
    Found { file: file.into(), form: None, left: Some(error.message.clone()) }
}

/// What a file holds in addition to a fresh terminal.
fn left_over(stored: &Stored, defaults: &Given) -> Option<String> {
    let fresh = Terminal::with_defaults(defaults.clone());
    if let Some(damage) = &stored.damage {
        return Some(damage.clone());
    }
    let beside = |terminal: &Terminal| {
        let changes = changes(&fresh, terminal);
        let first = changes.first()?.text();
        Some(match changes.len() {
            _ if !terminal.is_sound() => "tables that are not sound".into(),
            1 => first,
            count => format!("{count} differences, the first: {first}"),
        })
    };
    let spare = || {
        let left = stored.spare().and_then(|spare| beside(&spare));
        left.map(|left| format!("the spare image of the store: {left}"))
    };
    beside(&stored.terminal).or_else(spare)
}

impl Found {
    /// Whether the file is fresh.
    pub fn is_fresh(&self) -> bool {
        self.left.is_none()
    }

    /// `fresh` or `NOT FRESH`.
    pub fn verdict(&self) -> &'static str {
        if self.is_fresh() {
            "fresh"
        } else {
            "NOT FRESH"
        }
    }

    fn json(&self) -> Value {
        json!({
            "file": self.file.display().to_string(),
            "form": self.form.map(Form::name),
            "fresh": self.is_fresh(),
            "left": self.left,
        })
    }
}

/// A line for each file, and how many are fresh: status 0 where all are.
pub fn report(found: &[Found]) -> Report {
    let fresh = found.iter().filter(|one| one.is_fresh()).count();
    let line = |one: &Found| {
        let form = one.form.map(Form::name).unwrap_or("-");
        let left = one.left.clone().unwrap_or_default();
        format!("{}\t{}\t{form}\t{left}", verdict(one.is_fresh(), one.verdict()), name(&one.file))
    };
    let lines: Vec<String> = found.iter().map(line).collect();
    let sum = format!("{}, {fresh} fresh, {} not\n", many(found.len(), "file"), found.len() - fresh);
    let json = json!({ "files": found.iter().map(Found::json).collect::<Vec<_>>(), "fresh": fresh, "not": found.len() - fresh });
    Report::new(columns(&lines) + &sum, json, Status::of(fresh == found.len()))
}

#[cfg(test)]
mod tests {
    use super::*;
    use tillerclover::{Cred, Uuid};

    #[test]
    fn what_is_left_over() {
        let row = Cred { number: 9, subject: Uuid([1; 16]), kind: 4, ..Cred::default() };
        let defaults = Given { creds: row.body().to_vec(), aces: Vec::new() };
        for form in Form::ALL {
            let with = Stored::new(form, Terminal::with_defaults(defaults.clone())).bytes();
            let without = Stored::new(form, Terminal::new()).bytes();
            let left = |bytes: &[u8], defaults: &Given| look(Path::new("a"), bytes, defaults).left;
            assert_eq!(left(&with, &defaults), None, "{form:?}");
            assert_eq!(left(&without, &Given::default()), None, "{form:?}");
            assert!(left(&with, &Given::default()).unwrap().contains("credential row 9 added"), "{form:?}");
            assert!(left(&without, &defaults).unwrap().contains("credential row 9 removed"), "{form:?}");
        }
    }

    #[test]
    fn the_spare_image_is_looked_at() {
        let mut terminal = Terminal::new();
        terminal.tables.set_creds(&[Cred { number: 7, subject: Uuid([7; 16]), ..Cred::default() }]);
        let used = Stored::new(Form::Store, terminal).bytes();
        let mut stored = Stored::of(&used, Given::default()).unwrap();
        stored.terminal = Terminal::new();
        let found = look(Path::new("a"), &stored.bytes(), &Given::default());
        assert!(found.left.unwrap().starts_with("the spare image of the store: credential row 7 added"));
        let cleared = stored.cleared(Given::default()).bytes();
        assert_eq!((cleared.len(), look(Path::new("a"), &cleared, &Given::default()).left), (used.len(), None));
        assert!(!cleared.windows(16).any(|bytes| bytes == [7; 16]), "the last customer is still in it");
    }
}
