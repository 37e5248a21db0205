//! Tables of access rows as CSV, as spreadsheets read and write them: quotes around
//! what has a comma, a quote or a line's end in it.

use tillerclover::{Ace, Period};

use crate::{names, parse, times, words};

/// What a formula of a spreadsheet begins with.
const FORMULA: [char; 6] = ['=', '+', '-', '@', '\t', '\r'];
/// The columns of access rows. The name is for people, and is not read.
const COLUMNS: [&str; 7] = ["number", "subject", "name", "permission", "resources", "first", "last"];

/// Whether a text is a table of access rows: its first line has the names of columns.
pub fn is_table(text: &str) -> bool {
    let first = text.lines().next().unwrap_or_default().to_lowercase();
    !first.contains('=') && ["number", "subject", "resources"].iter().all(|name| first.contains(name))
}

/// The access rows of a table; the columns are found by their names.
pub fn rows(text: &str) -> Result<Vec<Ace>, String> {
    let lines = read(text)?;
    let Some((head, lines)) = lines.split_first() else { return Ok(Vec::new()) };
    let head: Vec<String> = head.iter().map(|name| name.trim().to_lowercase()).collect();
    if let Some(name) = head.iter().find(|name| !COLUMNS.contains(&name.as_str())) {
        let known: Vec<String> = COLUMNS.iter().map(|name| name.to_string()).collect();
        let near = parse::did_you_mean(name, &known);
        return Err(format!("unknown column '{name}'{near}; there are {}", COLUMNS.join(", ")));
    }
    let row =
        |(place, line): (usize, &Vec<String>)| row(&head, line).map_err(|error| format!("row {}: {error}", place + 1));
    lines.iter().enumerate().map(row).collect()
}

/// A row, by the words that it represents.
fn row(head: &[String], line: &[String]) -> Result<Ace, String> {
    let mut said: Vec<String> = Vec::new();
    for (name, cell) in head.iter().zip(line) {
        let cell = cell.trim();
        let value = match name.as_str() {
            "name" => continue,
            "resources" => cell.split([' ', ',', ';']).filter(|one| !one.is_empty()).collect::<Vec<_>>().join(","),
            "first" | "last" => cell.replacen(' ', "T", 1),
            _ => cell.replace(' ', "-"),
        };
        if !cell.is_empty() || name == "resources" {
            said.push(format!("{name}={value}"));
        }
    }
    parse::access_row(&said.join(" "))
}

/// A table of access rows.
pub fn of_rows(rows: &[Ace]) -> String {
    let line = |row: &Ace| {
        let name = match row.subject {
            tillerclover::Subject::Uuid(uuid) => names::of_uuid(uuid),
            tillerclover::Subject::Role(role) => names::of_role(role),
            _ => None,
        };
        let second = |second: u32, none: u32| if second == none { String::new() } else { times::word(second) };
        let cells = [
            row.number.to_string(),
            words::subject(row.subject),
            name.unwrap_or_default(),
            row.permission.to_string().replace('-', ""),
            words::resources(row, " "),
            second(row.period.first, Period::ALWAYS.first),
            second(row.period.last, Period::ALWAYS.last),
        ];
        cells.map(|text| cell(&text)).join(",") + "\n"
    };
    COLUMNS.join(",") + "\n" + &rows.iter().map(line).collect::<String>()
}

/// A cell as it is written. What a spreadsheet would take for a formula is quoted with a sign before it.
pub fn cell(text: &str) -> String {
    let formula = text.starts_with(FORMULA) && text.len() > 1;
    let text = if formula { format!("'{text}") } else { text.to_string() };
    match text.contains([',', '"', '\n', '\r']) {
        true => format!("\"{}\"", text.replace('"', "\"\"")),
        false => text,
    }
}

/// The cells of each line of a text. Commas, semicolons or tabs are between them, as the first line has them.
pub fn read(text: &str) -> Result<Vec<Vec<String>>, String> {
    let first = text.lines().next().unwrap_or_default();
    let between = [',', ';', '\t'].into_iter().max_by_key(|&sign| first.matches(sign).count()).unwrap_or(',');
    let mut lines = vec![vec![String::new()]];
    let mut letters = text.chars().peekable();
    let mut quoted = false;
    while let Some(letter) = letters.next() {
        let line = lines.last_mut().expect("a line");
        let cell = line.last_mut().expect("a cell");
        match letter {
            '"' if quoted && letters.peek() == Some(&'"') => {
                letters.next();
                cell.push('"');
            }
            '"' if quoted => quoted = false,
            '"' if cell.is_empty() => quoted = true,
            _ if quoted => cell.push(letter),
            '\n' => lines.push(vec![String::new()]),
            '\r' => {}
            _ if letter == between => line.push(String::new()),
            _ => cell.push(letter),
        }
    }
    if quoted {
        return Err(format!("line {}: a quote is open at the end", lines.len()));
    }
    lines.retain(|line| line.iter().any(|cell| !cell.trim().is_empty()));
    // The sign that keeps a spreadsheet from taking a cell for a formula is no part of it.
    for cell in lines.iter_mut().flatten() {
        if cell.strip_prefix('\'').is_some_and(|rest| rest.starts_with(FORMULA)) {
            cell.remove(0);
        }
    }
    Ok(lines)
}

#[cfg(test)]
mod tests {
    use super::*;

    #[test]
    fn rows_come_back() {
        let text = "number=1 subject=role:7@2 permission=RU resources=/tare,+,- first=2026-07-01 last=2026-09-30\n\
                    number=2 subject=anon-clear permission=R resources=\n";
        let made = parse::rows(text, parse::access_row).unwrap();
        assert_eq!(rows(&of_rows(&made)).unwrap(), made);
        assert!(is_table(&of_rows(&made)) && !is_table(text));
        let odd = "Resources;Number;Subject;Permission\n/tare /zero;5;auth-crypt;U\n";
        assert_eq!(
            words::ace(&rows(odd).unwrap()[0]),
            "number=5 subject=auth-crypt permission=--U-- resources=/tare,/zero"
        );
        assert!(rows("number,subject,resuorces\n").unwrap_err().contains("did you mean resources?"));
        assert!(rows("number,subject,permission,resources\nx,auth-crypt,R,/tare\n")
            .unwrap_err()
            .starts_with("row 1: the number"));
    }

    #[test]
    fn both_ways() {
        for text in ["a", "a,b", "a \"b\"", "two\nlines", ""] {
            let line = format!("x,{}\r\n", cell(text));
            assert_eq!(read(&line).unwrap(), [vec!["x".to_string(), text.into()]], "{text}");
        }
        assert_eq!(read("a;b;c,d\n1;2;3").unwrap(), [["a", "b", "c,d"], ["1", "2", "3"]]);
        assert_eq!(cell("=1+1"), "'=1+1");
        assert_eq!(read("'+ -,x").unwrap(), [["+ -", "x"]]);
        assert_eq!(cell("-"), "-");
        assert!(read("a,\"b").is_err());
    }
}
