//! What differs between two terminals: state, owners, rows field by field,
//! asserted roles and the queue. A comparison of bytes, in words and for programs.

use std::collections::BTreeMap;
use std::path::Path;

use serde_json::{json, Value};
use tillerclover::{Ace, Asserted, Cred, Resource, Slot, Terminal, Waiting};

use crate::error::name;
use crate::report::{many, Report, Status};
use crate::stored::Stored;
use crate::{hex, times, words};

/// What became of a thing.
#[derive(Clone, Copy, Debug, PartialEq, Eq)]
enum Kind {
    Added,
    Removed,
    Changed,
}

/// A field with both its values, in words and for programs.
#[derive(Clone, Debug, PartialEq, Eq)]
struct Field {
    name: &'static str,
    words: [String; 2],
    values: [Value; 2],
}

/// One thing that differs.
#[derive(Clone, Debug, PartialEq, Eq)]
pub struct Change {
    /// What it is: `access row`, `owner`, ..
    what: &'static str,
    /// Which one of them.
    key: Value,
    kind: Kind,
    /// The whole of what was added or removed, in words and for programs.
    whole: Option<(String, Value)>,
    fields: Vec<Field>,
}

impl Change {
    /// A line in words.
    pub fn text(&self) -> String {
        let key = match &self.key {
            Value::Null => String::new(),
            Value::String(key) => format!(" of {key}"),
            key => format!(" {key}"),
        };
        let name = format!("{}{key}", self.what);
        match (self.kind, &self.whole) {
            (Kind::Added, Some((words, _))) => format!("{name} added: {words}"),
            (Kind::Removed, Some((words, _))) => format!("{name} removed: {words}"),
            _ => {
                let fields = self.fields.iter().map(|Field { name: field, words: [from, to], .. }| match *field {
                    "" => format!("{from} -> {to}"),
                    _ => format!("{field} {from} -> {to}"),
                });
                let colon = if self.fields.iter().all(|field| field.name.is_empty()) { "" } else { ":" };
                format!("{name}{colon} {}", fields.collect::<Vec<_>>().join("; "))
            }
        }
    }

    /// The same for programs.
    pub fn json(&self) -> Value {
        let field = |Field { name, values: [from, to], .. }: &Field| {
            let name = if name.is_empty() { self.what } else { *name };
            json!({ "field": name, "from": from, "to": to })
        };
        json!({
            "what": self.what,
            "key": self.key,
            "kind": match self.kind { Kind::Added => "added", Kind::Removed => "removed", Kind::Changed => "changed" },
            "row": self.whole.as_ref().map(|(_, value)| value),
            "fields": self.fields.iter().map(field).collect::<Vec<_>>(),
        })
    }
}

/// All that differs from one terminal to the other. Empty exactly when both have the same bytes.
pub fn changes(from: &Terminal, to: &Terminal) -> Vec<Change> {
    let mut changes = head(from, to);
    changes.extend(creds(&from.tables.creds(), &to.tables.creds()));
    changes.extend(aces(&from.tables.aces(), &to.tables.aces()));
    changes.extend(queue(&from.waiting, &to.waiting));
    if changes.is_empty() {
        changes.extend(unnamed(from, to));
    }
    changes
}

/// A thing without parts that changed.
fn single(what: &'static str, key: Value, words: [String; 2], values: [Value; 2]) -> Option<Change> {
    let same = values[0] == values[1];
    let fields = vec![Field { name: "", words, values }];
    (!same).then_some(Change { what, key, kind: Kind::Changed, whole: None, fields })
}

fn head(from: &Terminal, to: &Terminal) -> Vec<Change> {
    let both = [&from.tables, &to.tables];
    let state = single(
        "state",
        Value::Null,
        both.map(|tables| tables.state().to_string()),
        both.map(|tables| json!({ "number": tables.state, "name": tables.state().name() })),
    );
    let uuids = both.map(|tables| words::uuid(tables.owner()));
    let owner = single("owner", Value::Null, uuids.clone(), uuids.map(Value::from));
    let owned = single(
        "owned",
        Value::Null,
        both.map(|tables| tables.owned.to_string()),
        both.map(|tables| json!(tables.owned)),
    );
    // In sound tables the bit says whether there is an owner.
    let owned = owned.filter(|_| both.iter().any(|tables| tables.owned != u8::from(!tables.owner().is_nil())));
    let rows = Resource::WITH_ROW_OWNER.into_iter().filter_map(|resource| {
        let uuids = both.map(|tables| words::uuid(tables.row_owner(resource).unwrap_or_default()));
        single("row owner", json!(resource.to_string()), uuids.clone(), uuids.map(Value::from))
    });
    state.into_iter().chain(owner).chain(owned).chain(rows).collect()
}

/// Rows by a key; those that repeat it are distinguished by their order.
fn keyed<R: Copy>(rows: &[R], key: impl Fn(&R) -> u16) -> BTreeMap<(u16, usize), R> {
    let mut keyed = BTreeMap::new();
    for row in rows {
        let number = key(row);
        let place = (0..).find(|place| !keyed.contains_key(&(number, *place))).unwrap_or(0);
        keyed.insert((number, place), *row);
    }
    keyed
}

/// How rows of a table are compared.
struct Table<'a, R> {
    what: &'static str,
    order: &'static str,
    number: &'a dyn Fn(&R) -> u16,
    words: &'a dyn Fn(&R) -> String,
    json: &'a dyn Fn(&R) -> Value,
    fields: &'a dyn Fn(&R, &R) -> Vec<Field>,
}

impl<R: Copy + PartialEq> Table<'_, R> {
    fn changes(&self, from: &[R], to: &[R]) -> Vec<Change> {
        let (before, after) = (keyed(from, self.number), keyed(to, self.number));
        let change = |number: u16, kind, row: Option<&R>, fields| Change {
            what: self.what,
            key: json!(number),
            kind,
            whole: row.map(|row| ((self.words)(row), (self.json)(row))),
            fields,
        };
        let mut changes = Vec::new();
        for (key, row) in &before {
            match after.get(key) {
                None => changes.push(change(key.0, Kind::Removed, Some(row), Vec::new())),
                Some(new) if new != row => changes.push(change(key.0, Kind::Changed, None, (self.fields)(row, new))),
                Some(_) => {}
            }
        }
        let new = after.iter().filter(|(key, _)| !before.contains_key(key));
        changes.extend(new.map(|(key, row)| change(key.0, Kind::Added, Some(row), Vec::new())));
        changes.extend(self.moved(from, to));
        changes
    }

    /// Rows that both have, in another order.
    fn moved(&self, from: &[R], to: &[R]) -> Option<Change> {
        let numbers = |rows: &[R], other: &[R]| {
            let known: Vec<u16> = other.iter().map(self.number).collect();
            rows.iter().map(self.number).filter(|number| known.contains(number)).collect::<Vec<u16>>()
        };
        let orders = [numbers(from, to), numbers(to, from)];
        let words = orders.clone().map(|order| order.iter().map(u16::to_string).collect::<Vec<_>>().join(" "));
        single(self.order, Value::Null, words, orders.map(|order| json!(order)))
    }
}

/// A field where it differs.
fn field(name: &'static str, words: [String; 2], values: [Value; 2]) -> Option<Field> {
    (values[0] != values[1]).then_some(Field { name, words, values })
}

fn creds(from: &[Cred], to: &[Cred]) -> Vec<Change> {
    let fields = |from: &Cred, to: &Cred| {
        let both = [from, to];
        let text = |name, part: &dyn Fn(&Cred) -> String| field(name, both.map(part), both.map(|row| part(row).into()));
        let number = |name, part: &dyn Fn(&Cred) -> u8| {
            field(name, both.map(|row| part(row).to_string()), both.map(|row| json!(part(row))))
        };
        let parts = [
            text("subject", &|row| row.subject.to_string()),
            text("role", &|row| words::role(row.role)),
            number("type", &|row| row.kind),
            number("zero bits", &|row| row.zeros),
            field("asserted roles", both.map(asserted), both.map(|row| words::asserted_json(&row.asserted))),
        ];
        parts.into_iter().flatten().collect()
    };
    let table = Table {
        what: "credential row",
        order: "order of the credential rows",
        number: &|row: &Cred| row.number,
        words: &|row| {
            let roles = words::asserted(&row.asserted);
            let asserted = if roles.is_empty() { String::new() } else { format!(", asserted roles {roles}") };
            words::cred(row) + &asserted
        },
        json: &words::cred_json,
        fields: &fields,
    };
    table.changes(from, to)
}

fn asserted(row: &Cred) -> String {
    let used = row.asserted.iter().any(|place| *place != Asserted::default());
    if used {
        words::asserted(&row.asserted)
    } else {
        "none".into()
    }
}

fn aces(from: &[Ace], to: &[Ace]) -> Vec<Change> {
    let fields = |from: &Ace, to: &Ace| {
        let both = [from, to];
        let text = |name, part: &dyn Fn(&Ace) -> String| field(name, both.map(part), both.map(|row| part(row).into()));
        let season = field(
            "season",
            both.map(|row| times::period(row.period)),
            both.map(|row| json!({ "first": row.period.first, "last": row.period.last })),
        );
        let parts = [
            text("subject", &|row| words::subject(row.subject)),
            text("permission", &|row| row.permission.to_string()),
            text("resources", &|row| words::resources_or_nothing(row)),
            season,
            field("zero bits", both.map(|row| row.zeros.to_string()), both.map(|row| json!(row.zeros))),
        ];
        parts.into_iter().flatten().collect()
    };
    let table = Table {
        what: "access row",
        order: "order of the access rows",
        number: &|row: &Ace| row.number,
        words: &words::ace,
        json: &words::ace_json,
        fields: &fields,
    };
    table.changes(from, to)
}

fn queue(from: &Waiting, to: &Waiting) -> Vec<Change> {
    let slots = [from.slots(), to.slots()];
    let keyed =
        slots.each_ref().map(|slots| slots.iter().map(|slot| (slot.sender, slot)).collect::<BTreeMap<u16, &Slot>>());
    let change = |slot: &Slot, kind| Change {
        what: "waiting record",
        key: json!(words::sender(slot.sender)),
        kind,
        whole: Some((words::record(&slot.record), words::slot_json(slot))),
        fields: Vec::new(),
    };
    let [before, after] = &keyed;
    let gone = before.iter().filter(|(sender, slot)| after.get(sender) != Some(slot));
    let mut changes: Vec<Change> = gone.map(|(_, slot)| change(slot, Kind::Removed)).collect();
    let new = after.iter().filter(|(sender, slot)| before.get(sender) != Some(slot));
    changes.extend(new.map(|(_, slot)| change(slot, Kind::Added)));
    let round = [from, to].map(|queue| queue.last_taken());
    changes.extend(single("round", Value::Null, round.map(words::round), round.map(|last| json!(last))));
    changes
}

/// Bytes that differ where no name reaches.
fn unnamed(from: &Terminal, to: &Terminal) -> Option<Change> {
    let bytes = [from, to].map(|terminal| [&terminal.tables.to_bytes()[..], &terminal.waiting.bytes].concat());
    let place = (0..bytes[0].len()).find(|&place| bytes[0][place] != bytes[1][place])?;
    let pair = [bytes[0][place], bytes[1][place]];
    let words = pair.map(|byte| hex::write(&[byte]));
    single("byte", json!(place), words, pair.map(|byte| json!(byte)))
}

/// Two files of tables compared: status 0 where they hold the same, and neither is damaged.
pub fn report(names: [&Path; 2], stored: [&Stored; 2]) -> Report {
    let changes = changes(&stored[0].terminal, &stored[1].terminal);
    let same = changes.is_empty() && stored.iter().all(|one| one.damage.is_none());
    let [one, other] = names.map(name);
    let damaged = names.iter().zip(stored).filter_map(|(path, stored)| Some((name(path), stored.damage.as_ref()?)));
    let mut text: String = damaged.map(|(name, damage)| format!("{name}: {damage}\n")).collect();
    text += &match changes.len() {
        0 if same => format!("{one} and {other} hold the same\n"),
        0 => format!("{one} and {other} hold the same tables and waiting records\n"),
        count => format!("from {one} to {other}: {}\n", many(count, "difference")),
    };
    text += &changes.iter().map(|change| format!("  {}\n", change.text())).collect::<String>();
    let json = json!({
        "from": names[0].display().to_string(),
        "to": names[1].display().to_string(),
        "same": same,
        "damage": stored.map(|stored| &stored.damage),
        "changes": changes.iter().map(Change::json).collect::<Vec<_>>(),
    });
    Report::new(text, json, Status::of(same))
}
