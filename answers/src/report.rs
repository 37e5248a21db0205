//! What a command says, for people and for programs, and its exit status.

use std::cell::Cell;
use std::path::{Path, PathBuf};

use serde_json::Value;

thread_local! {
    static WIDTH: Cell<Option<usize>> = const { Cell::new(None) };
}

/// The exit status of a command that could be done.
#[derive(Clone, Copy, Debug, PartialEq, Eq)]
pub enum Status {
    /// Permitted, sound, accepted: 0.
    Yes,
    /// Refused, not sound, not accepted: 1.
    No,
}

impl Status {
    /// 0 exactly when all is well.
    pub fn of(well: bool) -> Status {
        if well {
            Status::Yes
        } else {
            Status::No
        }
    }
}

/// A text and the same as JSON.
pub struct Report {
    /// For people, with a line's end at its end.
    pub text: String,
    /// For programs.
    pub json: Value,
    /// For both.
    pub status: Status,
    /// Notes for people, which go to the errors and not to the text.
    pub notices: Vec<String>,
    /// The file that was changed.
    pub changed: Option<PathBuf>,
}

impl Report {
    /// The result of a command that changed no file.
    pub fn new(text: String, json: Value, status: Status) -> Report {
        Report { text, json, status, notices: Vec::new(), changed: None }
    }

    /// The result of a command that changed this file.
    pub fn after_change(self, file: &Path) -> Report {
        Report { changed: Some(file.into()), ..self }
    }
}

/// Says how many letters a line has where this thread's tables are shown; none where that does not matter.
pub fn set_width(width: Option<usize>) {
    WIDTH.set(width);
}

/// A head and rows of cells between tabs as columns. Where they are wider than the screen, each row has the heads beside its
/// cells, and goes on below.
pub fn table(head: &str, rows: &[String]) -> String {
    let lines: Vec<String> = [head.to_string()].into_iter().chain(rows.iter().cloned()).collect();
    let wide = columns(&lines);
    match WIDTH.get() {
        Some(width) if wide.lines().any(|line| shown(line) > width) => {
            rows.iter().map(|row| stacked(head, row, width)).collect()
        }
        _ => wide,
    }
}

/// A row with the head of each cell before it. Cells that are empty are left out.
fn stacked(head: &str, row: &str, width: usize) -> String {
    let heads = head.split('\t').chain(std::iter::repeat(""));
    let cells = row.split('\t').zip(heads).filter(|(cell, _)| shown(cell) > 0);
    let parts: Vec<String> = cells.map(|(cell, head)| format!("{head} {cell}").trim_start().to_string()).collect();
    let (mut text, mut column) = (String::new(), 0);
    for (place, part) in parts.iter().enumerate() {
        let end = if place + 1 < parts.len() { ";" } else { "\n" };
        let long = shown(part) + usize::from(place + 1 < parts.len());
        let between = match place {
            0 => "",
            _ if column + 1 + long > width => "\n    ",
            _ => " ",
        };
        column = if between.len() > 1 { between.len() - 1 } else { column + between.len() } + long;
        text += &format!("{between}{part}{end}");
    }
    text
}

/// Lines of cells between tabs as columns.
pub fn columns(lines: &[String]) -> String {
    use std::io::Write;
    let mut writer = tabwriter::TabWriter::new(Vec::new()).padding(2);
    for line in lines {
        writeln!(writer, "{line}").expect("a text in memory");
    }
    let bytes = writer.into_inner().unwrap_or_default();
    let text = String::from_utf8_lossy(&bytes);
    // Empty cells at the end of a line leave no spaces.
    text.lines().map(|line| format!("{}\n", line.trim_end())).collect()
}

/// A text whose lines have at most that many letters: longer ones go on below, further to the right. Colours have no width.
pub fn folded(text: &str, width: usize) -> String {
    let mut folded = String::with_capacity(text.len());
    for line in text.lines() {
        let indent = line.len() - line.trim_start().len();
        let further = (indent + 4).min(width / 2);
        let mut column = 0;
        for (place, word) in line.split_inclusive(' ').enumerate() {
            if place > 0 && column > further && column + shown(word.trim_end()) > width {
                folded.truncate(folded.trim_end().len());
                folded += &format!("\n{}", " ".repeat(further));
                column = further;
            }
            // What is left of a column's padding does not begin a line.
            if column == further && place > 0 && word.trim().is_empty() && folded.ends_with(' ') {
                continue;
            }
            folded += word;
            column += shown(word);
        }
        folded.push('\n');
    }
    folded
}

/// How many letters of a text a screen shows.
fn shown(text: &str) -> usize {
    let mut parts = text.split('\x1b');
    let first = parts.next().unwrap_or_default().chars().count();
    first + parts.map(|part| part.find('m').map_or(0, |end| part[end + 1..].chars().count())).sum::<usize>()
}

/// A count and what is counted.
pub fn many(count: usize, what: &str) -> String {
    match count {
        1 => format!("1 {what}"),
        _ => format!("{count} {what}s"),
    }
}

#[cfg(test)]
mod tests {
    use super::*;

    #[test]
    fn a_table_on_a_narrow_screen() {
        let (head, rows) = ("number\tsubject\tseason\t", ["1\tNorthfield\talways\t".into(), "2\t\tover\tlook".into()]);
        let wide = "number  subject     season\n1       Northfield  always\n2                   over    look\n";
        set_width(Some(32));
        assert_eq!(table(head, &rows), wide);
        set_width(Some(27));
        assert_eq!(
            table(head, &rows),
            "number 1;\n    subject Northfield;\n    season always\nnumber 2; season over; look\n"
        );
        set_width(None);
        assert_eq!(table(head, &rows), wide);
    }

    #[test]
    fn lines_within_a_width() {
        let text = "short\n  a line that is much longer than it may be\n\n";
        assert_eq!(folded(text, 80), text);
        assert_eq!(folded(text, 24), "short\n  a line that is much\n      longer than it may\n      be\n\n");
        assert!(folded(text, 24).lines().all(|line| line.len() <= 24));
        assert_eq!(folded("an-unbroken-word-of-thirty-letters", 10), "an-unbroken-word-of-thirty-letters\n");
        assert_eq!(folded("\x1b[32mgreen\x1b[0m letters", 13), "\x1b[32mgreen\x1b[0m letters\n");
    }
}
