//! `undo`: puts the file back that the last change kept, and says what changed.

use std::path::Path;
use std::time::Duration;

use answers::diff::{changes, Change};
use answers::report::{many, Report, Status};
use answers::service;
use answers::stored::Stored;
use serde_json::json;
use tillerclover::Given;

use crate::error::{name, Error};
use crate::lock::Locked;
use crate::store::{self, backup_path};

/// Puts the kept file back; the present one is then kept.
pub fn undo(path: &Path, wait: Duration) -> Result<Report, Error> {
    let locked = Locked::open(path, wait)?;
    let kept = backup_path(path);
    if !kept.exists() {
        return Err(Error::of(path, format!("{} is not there: no earlier file is kept", name(&kept))));
    }
    let (now, before) = (locked.read()?, store::read(&kept)?);
    let changed = told(&now, &before);
    if now != before {
        locked.replace(&before, true)?;
    }
    let last = if now == before { "is as it was before" } else { "is as it was before; undo again takes this back" };
    let mut text: String = changed.iter().map(|(text, _)| format!("  {text}\n")).collect();
    text = format!("{}: {last}\n{text}", name(path));
    let notes = notes(&now, &before);
    text += &notes.iter().map(|note| format!("{}: {note}\n", name(path))).collect::<String>();
    let report = Report::new(
        text,
        json!({
            "file": path.display().to_string(),
            "changed": now != before,
            "changes": changed.iter().map(|(_, json)| json).collect::<Vec<_>>(),
            "notes": notes,
        }),
        Status::Yes,
    );
    Ok(if now == before { report } else { report.after_change(path) })
}

/// What is to be reported of the tables that are put back.
fn notes(now: &[u8], before: &[u8]) -> Vec<String> {
    match [now, before].map(|bytes| Stored::of(bytes, Given::default())) {
        [Ok(now), Ok(before)] if now != before => service::notes(&now.terminal, &before.terminal),
        _ => Vec::new(),
    }
}

/// The differences, in words and for programs; of files that are no tables their lengths.
fn told(now: &[u8], before: &[u8]) -> Vec<(String, serde_json::Value)> {
    let both = [now, before].map(|bytes| Stored::of(bytes, Given::default()));
    if let [Ok(now), Ok(before)] = both {
        let changes = changes(&now.terminal, &before.terminal);
        return changes.iter().map(|change: &Change| (change.text(), change.json())).collect();
    }
    let lengths = [now.len(), before.len()];
    let [from, to] = lengths.map(|length| many(length, "byte"));
    vec![(format!("{from} -> {to}"), json!({ "what": "bytes", "from": lengths[0], "to": lengths[1] }))]
}
