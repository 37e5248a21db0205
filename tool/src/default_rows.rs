//! `defaults`: the build's default rows, made of words and written as the bytes that
//! a program of the maker's is built with.

use answers::report::{many, Report, Status};
use clap::ArgMatches;
use serde_json::json;
use tillerclover::{Ace, Cred};

use crate::arguments::{default_lists, file, force};
use crate::boxing::sum;
use crate::error::{name, Error};
use crate::list::not_itself;
use crate::store;

/// `defaults creds FROM NEW`, and `defaults aces FROM NEW`. Rows that no terminal would begin with leave no file after.
pub fn defaults(kind: &str, arguments: &ArgMatches) -> Result<Report, Error> {
    let (from, new) = (file(arguments, "FROM"), file(arguments, "NEW"));
    not_itself(from, new)?;
    let (bytes, length, what) = match kind {
        "creds" => (default_lists(Some(from), None)?.creds, Cred::LENGTH, "default credential row"),
        _ => (default_lists(None, Some(from))?.aces, Ace::LENGTH, "default access row"),
    };
    let (rows, sum) = (bytes.len() / length, sum(&bytes));
    store::write(new, &bytes, force(arguments))?;
    let text = format!("{}: written, {}, {} bytes, sha256 {sum}\n", name(new), many(rows, what), bytes.len());
    let json = json!({ "file": new.display().to_string(), "rows": rows, "bytes": bytes.len(), "sha256": sum });
    Ok(Report::new(text, json, Status::Yes).after_change(new))
}
