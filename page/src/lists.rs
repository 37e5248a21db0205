//! Questions about lists of access rows: tested, written out, made, converted and
//! loaded into the tables.

use std::path::Path;

use answers::error::Error;
use answers::list;
use answers::load::{self, Load};
use answers::stored::without_mark;
use tillerclover::Terminal;

use crate::asked::Asked;
use crate::{only, Answer};

/// Whether a terminal would take the list.
pub fn check(asked: &Asked) -> Answer {
    only(list::check(asked.path(), asked.file))
}

/// The office's text of tables or of a list.
pub fn text(asked: &Asked) -> Answer {
    list::text(asked.path(), asked.file, asked.flag("seasons")).and_then(only)
}

/// A list of rows in words or of the office's JSON.
pub fn make(asked: &Asked) -> Answer {
    let text = std::str::from_utf8(without_mark(asked.file)).map_err(|_| Error::of(asked.path(), "is no text"))?;
    let made = load::read(asked.path(), text)?;
    let list = made.list();
    match load::not_made(asked.path(), &list) {
        Some(report) => only(report),
        None => Ok((load::made(asked.path(), &made), Some(list))),
    }
}

/// A list of an older terminal's.
pub fn convert(asked: &Asked) -> Answer {
    match Terminal::convert_list(asked.file) {
        Ok(made) => Ok((list::converted(asked.path(), asked.file, &made), Some(made))),
        Err(answer) => only(list::not_converted(asked.path(), asked.file, answer)),
    }
}

/// A list loaded into the tables, all or nothing.
pub fn load(asked: &Asked) -> Answer {
    let (path, list) = (Path::new(asked.text("list_name")), asked.other("list")?);
    if !Terminal::test_list(&list).answer.is_permitted() {
        return only(list::check(path, &list));
    }
    let mut stored = asked.stored()?;
    let sender = asked.number("sender").ok_or_else(|| Error::new("which sender?"))?;
    let load = Load { list: &list, sender, clock: asked.clock()?, replace: asked.flag("replace") };
    match load.into_terminal(asked.path(), &mut stored.terminal) {
        Ok(loaded) => {
            let bytes = stored.bytes();
            Ok((load::loaded(asked.path(), &loaded, (bytes != asked.file, false)), Some(bytes)))
        }
        Err(report) => only(report),
    }
}
