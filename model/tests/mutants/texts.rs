//! Mutants of the office text: programs that write another text, or answer
//! otherwise.

use model::answers::*;
use model::case::{Case, GUARD};
use model::office::text;
use model::tables::{fresh_bytes, Access, Period, Role, Row, Subject, Tables, Uuid, ACCESSES, ACCESS_COUNT};
use model::texts::Listed;

use super::wanted_roles;
use Mutant::*;

/// A mutant, by what it does otherwise than the rules.
pub enum Mutant {
    /// What it makes of a case, given what is right.
    Any(&'static str, fn(&Case, Listed) -> Listed),
    /// It gives another answer, and nothing else, for a right one: first the right
    /// one.
    Answer(&'static str, u8, u8),
    /// It writes another text for the access rows.
    Text(&'static str, fn(Vec<Access>) -> String),
    /// It changes the rows before it writes them.
    Rows(&'static str, fn(&mut Vec<Access>)),
    /// It writes roles otherwise.
    Roles(&'static str, fn(Role) -> String),
    /// It writes one piece instead of another: first the right one.
    Replace(&'static str, &'static str, &'static str),
}

impl Mutant {
    /// What it makes of a case, given what is right.
    pub fn run(&self, case: &Case, right: Listed) -> Listed {
        match *self {
            Any(_, run) => run(case, right),
            Answer(_, from, to) if right.answer == from => untouched(to, case),
            Answer(..) => right,
            Text(_, other) => other_text(case, right, other),
            Rows(_, change) => other_text(case, right, |mut rows| {
                change(&mut rows);
                text(&rows)
            }),
            Roles(_, other) => other_text(case, right, |rows| other_roles(rows, other)),
            Replace(_, piece, by) => other_text(case, right, |rows| text(&rows).replace(piece, by)),
        }
    }

    /// What it does, for a sentence that begins with "a mutant that".
    pub fn name(&self) -> &'static str {
        let (Any(name, ..) | Answer(name, ..) | Text(name, ..) | Rows(name, ..) | Roles(name, ..) | Replace(name, ..)) =
            self;
        name
    }
}

/// The text of no rows.
const EMPTY_LIST: &str = r#"{"aclist2":[]}"#;

/// More than any text needs.
const PLENTY: usize = 20_000;

fn untouched(answer: u8, case: &Case) -> Listed {
    Listed { answer, length: 0, buffer: Case::pattern(case.capacity + GUARD) }
}

/// Another text instead of the right one, or the refusal when it does not fit.
fn other_text(case: &Case, right: Listed, other: impl Fn(Vec<Access>) -> String) -> Listed {
    let Ok(tables) = Tables::read(&case.tables) else {
        return right;
    };
    let text = other(tables.accesses);
    if text.len() > case.capacity {
        return untouched(LIST_NO_ROOM, case);
    }
    let mut listed = Listed { length: text.len(), ..untouched(PERMITTED, case) };
    listed.buffer[..text.len()].copy_from_slice(text.as_bytes());
    listed
}

/// The text with the roles written otherwise.
fn other_roles(mut rows: Vec<Access>, other: fn(Role) -> String) -> String {
    let whole = text(&rows);
    wanted_roles(&mut rows).fold(whole, |text, &mut role| {
        let Role { authority, number } = role;
        text.replace(&format!(r#""authority":"{authority}","role":"{number}""#), &other(role))
    })
}

pub const TABLE: &[Mutant] = &[
    Any("turns all away", |case, _| untouched(LIST_NO_ROOM, case)),
    Any("never says 17", |case, right| match right.answer {
        LIST_NOT_SOUND => Listed::expected(&Case { tables: fresh_bytes(), ..case.clone() }),
        _ => right,
    }),
    Answer("says 1 for 17", LIST_NOT_SOUND, NOT_SOUND),
    Answer("says 15 for 18", LIST_NO_ROOM, NO_ROOM),
    Any("says 18 before 17", |case, right| match right.answer {
        LIST_NOT_SOUND if case.capacity < EMPTY_LIST.len() => untouched(LIST_NO_ROOM, case),
        _ => right,
    }),
    Any("looks at the access rows only", |case, right| {
        let rows =
            case.tables[ACCESSES].chunks(Access::ROW_SIZE).take(case.tables[ACCESS_COUNT].into()).map(Access::read);
        match rows.collect::<Option<Vec<Access>>>() {
            Some(accesses) if right.answer == LIST_NOT_SOUND => {
                let tables = Tables { accesses, ..Tables::fresh() };
                Listed::expected(&Case { tables: tables.bytes(), ..case.clone() })
            }
            _ => right,
        }
    }),
    Any("says 18 when the text just fits", |case, right| {
        if right.length > 0 && right.length == case.capacity {
            untouched(LIST_NO_ROOM, case)
        } else {
            right
        }
    }),
    Any("writes as much as fits", |case, mut right| {
        if right.answer == LIST_NO_ROOM {
            let whole = Listed::expected(&Case { capacity: PLENTY, ..case.clone() });
            right.buffer[..case.capacity].copy_from_slice(&whole.buffer[..case.capacity]);
        }
        right
    }),
    Any("writes the rows that fit whole", |case, right| match Tables::read(&case.tables) {
        Ok(mut tables) if right.answer == LIST_NO_ROOM => {
            while text(&tables.accesses).len() > case.capacity && tables.accesses.pop().is_some() {}
            Listed {
                answer: LIST_NO_ROOM,
                length: 0,
                ..Listed::expected(&Case { tables: tables.bytes(), ..case.clone() })
            }
        }
        _ => right,
    }),
    Any("reports the length it would need", |case, right| match right.answer {
        LIST_NO_ROOM => Listed { length: Listed::expected(&Case { capacity: PLENTY, ..case.clone() }).length, ..right },
        _ => right,
    }),
    Any("reports a length and writes nothing", |case, right| Listed {
        buffer: untouched(PERMITTED, case).buffer,
        ..right
    }),
    Any("ends the text with a zero byte", |case, mut right| {
        if right.answer == PERMITTED && right.length < case.capacity {
            right.buffer[right.length] = 0;
        }
        right
    }),
    Any("writes a zero byte after the buffer", |case, mut right| {
        if right.answer == PERMITTED && right.length == case.capacity {
            right.buffer[right.length] = 0;
        }
        right
    }),
    Any("clears the buffer after the text", |case, mut right| {
        right.buffer[right.length..case.capacity].fill(0);
        right
    }),
    Rows("sorts the rows", |rows| rows.sort_by_key(Row::number)),
    Rows("turns the rows round", |rows| rows.reverse()),
    Rows("leaves the last row out", |rows| rows.truncate(rows.len().saturating_sub(1))),
    Rows("leaves the last row of a full table out", |rows| rows.truncate(Access::CAPACITY - 1)),
    Rows("leaves rows without permission out", |rows| rows.retain(|row| row.permission != 0)),
    Rows("leaves rows without a resource out", |rows| {
        rows.retain(|row| row.set != 0 || row.wildcards != Default::default())
    }),
    Rows("leaves the security resources out", |rows| rows.iter_mut().for_each(|row| row.set = row.set << 8 >> 8)),
    Rows("cuts row numbers to a byte", |rows| rows.iter_mut().for_each(|row| row.number %= 256)),
    Rows("cuts roles to a byte", |rows| wanted_roles(rows).for_each(|role| role.number %= 256)),
    Rows("cuts authorities to a byte", |rows| wanted_roles(rows).for_each(|role| role.authority %= 256)),
    Rows("takes role and authority for each other", |rows| {
        wanted_roles(rows).for_each(|role| (role.authority, role.number) = (role.number, role.authority))
    }),
    Rows("turns the bytes of a UUID round", |rows| {
        for row in rows {
            if let Subject::Uuid(uuid) = &mut row.subject {
                *uuid = Uuid::new(uuid.get().swap_bytes()).expect("not nil");
            }
        }
    }),
    Text("writes letters of a UUID large", |rows| {
        let whole = text(&rows);
        let mut pieces = whole.split(r#"{"uuid":""#);
        let first = pieces.next().unwrap_or("").to_string();
        pieces.fold(first, |text, piece| text + r#"{"uuid":""# + &piece[..36].to_uppercase() + &piece[36..])
    }),
    Roles("writes roles as numbers", |Role { authority, number }| {
        format!(r#""authority":{authority},"role":{number}"#)
    }),
    Roles("leaves authorities out", |Role { number, .. }| format!(r#""role":"{number}""#)),
    Roles("puts the role first", |Role { authority, number }| {
        format!(r#""role":"{number}","authority":"{authority}""#)
    }),
    Text("writes row numbers with two digits", |rows| {
        let small = rows.iter().map(Row::number).filter(|&number| number < 10);
        small.fold(text(&rows), |text, number| {
            text.replace(&format!(r#""aceid":{number},"#), &format!(r#""aceid":0{number},"#))
        })
    }),
    Replace("takes one connection for the other", "anon-clear", "auth-crypt"),
    Replace("puts the wildcard - first", r#"{"wc":"+"},{"wc":"-"}"#, r#"{"wc":"-"},{"wc":"+"}"#),
    Replace("puts the wildcard * before -", r#"{"wc":"-"},{"wc":"*"}"#, r#"{"wc":"*"},{"wc":"-"}"#),
    Replace(
        "puts /tare before /weight",
        r#"{"href":"/weight"},{"href":"/tare"}"#,
        r#"{"href":"/tare"},{"href":"/weight"}"#,
    ),
    Replace("puts no comma before a wildcard", r#"},{"wc""#, r#"}{"wc""#),
    Replace("puts a comma after the last row", "}]}", "},]}"),
    Rows("writes rows of a short period", |rows| rows.iter_mut().for_each(|row| row.period = Period::ALWAYS)),
    Rows("writes rows whose period begins later", |rows| rows.iter_mut().for_each(|row| row.period.first = 0)),
    Rows("writes rows whose period ends earlier", |rows| rows.iter_mut().for_each(|row| row.period.last = u32::MAX)),
    Rows("stops at a row that it leaves out", |rows| {
        let written = rows.iter().take_while(|row| row.period == Period::ALWAYS).count();
        rows.truncate(written);
    }),
    Text("puts a comma for a row that it leaves out", |rows| {
        let rows: Vec<String> = rows.into_iter().map(|row| text(&[row])).collect();
        let inner = rows.iter().map(|text| &text[r#"{"aclist2":["#.len()..text.len() - 2]);
        format!(r#"{{"aclist2":[{}]}}"#, inner.collect::<Vec<&str>>().join(","))
    }),
    Replace("puts a space after each comma", ",", ", "),
];
