//! `new`: the tables of a new terminal.

use std::path::Path;

use answers::report::{Report, Status};
use answers::stored::{Form, Stored};
use serde_json::json;
use tillerclover::{Given, Terminal};

use crate::error::{name, Error};
use crate::store::{self, Care};

/// Writes the tables of a new terminal, in the form of this name.
pub fn new(path: &Path, form: Option<&str>, defaults: Given, replace: Option<Care>) -> Result<Report, Error> {
    let form = Form::ALL.into_iter().find(|known| Some(known.name()) == form).unwrap_or(Form::Terminal);
    let stored = Stored::new(form, Terminal::with_defaults(defaults));
    store::write(path, &stored.bytes(), replace)?;
    let text = format!("{}: written, {} bytes, a new terminal that nobody owns\n", name(path), form.length());
    let json = json!({ "file": path.display().to_string(), "form": form.name(), "bytes": form.length() });
    Ok(Report::new(text, json, Status::Yes).after_change(path))
}
