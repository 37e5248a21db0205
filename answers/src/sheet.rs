//! One sheet with the rights, the tables and the device state, as a page of HTML to
//! print and file. It needs no script and no other file.

use std::path::Path;

use tillerclover::{Ace, Cred, Permission, Resource, Subject, Tables, Terminal, Waiting};

use crate::marks::{self, Mark, DAY};
use crate::matrix::{matrix, short_name, Cell, Line};
use crate::seasons::{self, Place, Season};
use crate::senders::Sender;
use crate::stored::Stored;
use crate::times::{self, Day, Zone};
use crate::who::ROLES_ARE_OPEN;
use crate::yards::{self, Finding, Other, Yard};
use crate::{names, service, words};

const STYLE: &str = include_str!("sheet.css");

/// The sheet of sound tables at this clock, with the isolation of these yards, and by whom it is written.
pub fn sheet(path: &Path, stored: &Stored, clock: u32, named: &[Yard], by: &str) -> String {
    let terminal = &stored.terminal;
    let name = escape(&path.display().to_string());
    let sections = [
        head(&name, terminal, clock),
        rights(&matrix(terminal, clock)),
        isolation(terminal, named),
        timeline(terminal, clock),
        access_rows(terminal, clock),
        credentials(&terminal.tables),
        waiting(terminal),
    ];
    format!(
        "<!DOCTYPE html>\n<html lang=\"en\">\n<head>\n<meta charset=\"utf-8\">\n\
         <meta name=\"viewport\" content=\"width=device-width, initial-scale=1\">\n\
         <title>Access rights of {name}</title>\n<style>\n{STYLE}</style>\n</head>\n<body>\n{}{}</body>\n</html>\n",
        sections.concat(),
        footer(by),
    )
}

/// A text that represents itself in a page.
fn escape(text: &str) -> String {
    let mut escaped = String::with_capacity(text.len());
    for letter in text.chars() {
        match letter {
            '&' => escaped += "&amp;",
            '<' => escaped += "&lt;",
            '>' => escaped += "&gt;",
            '"' => escaped += "&quot;",
            '\'' => escaped += "&#39;",
            _ => escaped.push(letter),
        }
    }
    escaped
}

fn head(name: &str, terminal: &Terminal, clock: u32) -> String {
    let tables = &terminal.tables;
    let mut lines = vec![
        ("State", escape(&words::state(tables.state()))),
        ("Device owner", escape(&words::named_uuid(tables.owner()))),
    ];
    for resource in Resource::WITH_ROW_OWNER {
        let owner = tables.row_owner(resource).unwrap_or_default();
        if !owner.is_nil() {
            lines.push(("Row owner", escape(&format!("{} of {resource}", words::named_uuid(owner)))));
        }
    }
    if service::locked_out(terminal) {
        lines.push(("Note", format!("<span class=\"bad\">{}</span>", service::LOCKED_OUT)));
    }
    lines.push(("Rows held", format!("{} credentials, {} access control entries", tables.ncreds, tables.naces)));
    let lines: String = lines.iter().map(|(term, what)| format!("<dt>{term}</dt><dd>{what}</dd>\n")).collect();
    format!(
        "<header>\n<h1>Access rights of {name}</h1>\n<p class=\"lead\">As of {} ({})</p>\n<dl>\n{lines}</dl>\n</header>\n",
        times::word(clock),
        escape(&Zone::chosen().name()),
    )
}

/// A section with a table.
fn section(title: &str, before: &str, class: &str, heads: &[String], rows: &str) -> String {
    let heads: String = heads.iter().map(|head| format!("<th scope=\"col\">{head}</th>")).collect();
    format!(
        "<section>\n<h2>{title}</h2>\n{before}<div class=\"wide\">\n<table class=\"{class}\">\n<thead><tr>{heads}</tr></thead>\n\
         <tbody>\n{rows}</tbody>\n</table>\n</div>\n</section>\n"
    )
}

fn rights(lines: &[Line]) -> String {
    let mut heads = vec!["Sender".to_string()];
    heads.extend(
        Resource::ALL.iter().map(|resource| format!("<abbr title=\"{resource}\">{}</abbr>", short_name(*resource))),
    );
    let row = |line: &Line| {
        let cells: String = line.cells.iter().map(|cell| format!("<td>{}</td>", cell_text(cell))).collect();
        format!("<tr><th scope=\"row\">{}</th>{cells}</tr>\n", sender(line.sender))
    };
    let open = lines.iter().any(|line| matches!(line.sender, Sender::Asserting(_)));
    let before = format!(
        "<p>C create, R retrieve and observe, U update, D delete, N notify. A dash: no right. Not served: the resource has no \
         endpoint for the sender's connection. Rights alone: in another device state than RFNOP, or for its body, a record \
         may be refused all the same.{}</p>\n",
        if open { format!(" <strong>{ROLES_ARE_OPEN}</strong>") } else { String::new() }
    );
    section("Who may do what", &before, "rights", &heads, &lines.iter().map(row).collect::<String>())
}

fn sender(sender: Sender) -> String {
    match sender {
        Sender::Clear => "Anybody, in clear".into(),
        Sender::Credential(row) => {
            let name = names::of_number(row.number).map_or(String::new(), |name| format!(" <b>{}</b>", escape(&name)));
            format!("Credential {}{name} <span class=\"mono\">{}</span>", row.number, row.subject)
        }
        Sender::Asserting(role) => format!("Any credential that asserts role {}", escape(&words::named_role(role))),
    }
}

fn cell_text(cell: &Cell) -> String {
    if !cell.served {
        return "<span class=\"none\">not served</span>".into();
    }
    let letters = |permission: Permission| permission.to_string().replace('-', "");
    let mut text = match letters(cell.now).as_str() {
        "" => "<span class=\"none\">&ndash;</span>".to_string(),
        now => format!("<span class=\"now\">{now}</span>"),
    };
    for (permission, class, word) in [(cell.over, "over", "over"), (cell.to_come, "come", "to come")] {
        if !permission.is_empty() {
            text += &format!("<span class=\"{class}\">{} {word}</span>", letters(permission));
        }
    }
    text
}

/// Each yard, and then who of no yard could end it; nothing where no yard is named.
fn isolation(terminal: &Terminal, named: &[Yard]) -> String {
    if named.is_empty() {
        return String::new();
    }
    let findings: Vec<Finding> = named.iter().map(|yard| yard.ask(terminal)).collect();
    let row = |(yard, finding): (&Yard, &Finding)| {
        let (name, list) = (escape(&yard.name), yard.list());
        format!("<tr><th scope=\"row\">{name}</th><td>{list}</td><td>{}</td></tr>\n", isolation_text(terminal, finding))
    };
    let rows: String = named.iter().zip(&findings).map(row).collect();
    let before = match findings.iter().all(|finding| finding.isolation.is_isolated()) {
        true => format!("<p>{}</p>\n", yards::UNTIL),
        false => String::new(),
    };
    let heads = ["Yard", "Credentials", "Isolated"].map(String::from);
    let (could, _): (Vec<Other>, Vec<Other>) =
        yards::others(terminal, named).into_iter().partition(|other| !other.finding.isolation.is_isolated());
    let row = |other: &Other| {
        let reason = escape(&other.finding.why(&terminal.tables).unwrap_or_default());
        format!("<tr><th scope=\"row\">{}</th><td>{reason}</td></tr>\n", sender(other.sender))
    };
    let enders: String = could.iter().map(row).collect();
    let title = "Of no yard, and could end it";
    section("Isolation of yards", &before, "", &heads, &rows)
        + &section(title, &none_held(&enders), "", &["Sender", "Why"].map(String::from), &enders)
}

fn isolation_text(terminal: &Terminal, finding: &Finding) -> String {
    match finding.reason(&terminal.tables) {
        None => "<span class=\"now\">isolated</span>".into(),
        Some(reason) => format!("<span class=\"bad\">not isolated</span>: {}", escape(&reason)),
    }
}

/// The months that a timeline shows before and after the clock.
const MONTHS: [u32; 2] = [6, 12];
/// The left end and the right end of its bars, and the height of one.
const BARS: [f64; 3] = [330.0, 860.0, 24.0];

/// The rows that have a season, as bars over eighteen months; nothing where no row has one.
fn timeline(terminal: &Terminal, clock: u32) -> String {
    let found = seasons::seasons(terminal, clock);
    if found.is_empty() {
        return String::new();
    }
    let [first, last] = [clock.saturating_sub(MONTHS[0] * 30 * DAY), clock.saturating_add(MONTHS[1] * 30 * DAY)];
    let at = |second: u32| {
        let share = f64::from(second.clamp(first, last) - first) / f64::from((last - first).max(1));
        BARS[0] + share * (BARS[1] - BARS[0])
    };
    let high = 34.0 + BARS[2] * found.len() as f64;
    let upright = |class: &str, x: f64| {
        format!("<line class=\"{class}\" x1=\"{x:.1}\" x2=\"{x:.1}\" y1=\"18\" y2=\"{high}\"/>\n")
    };
    let mut svg: String = months(first, last).iter().map(|(second, _)| upright("tick", at(*second))).collect();
    for (second, name) in months(first, last).iter().step_by(3) {
        svg +=
            &format!("<text class=\"tick\" x=\"{:.1}\" y=\"12\" text-anchor=\"middle\">{name}</text>\n", at(*second));
    }
    for (place, season) in found.iter().enumerate() {
        svg += &bar(season, 24.0 + BARS[2] * place as f64, [at(season.row.period.first), at(season.row.period.last)]);
    }
    svg += &upright("clock", at(clock));
    format!(
        "<section>\n<h2>Seasons</h2>\n<p>Rows that hold for a season; all others hold always. The red line is the clock of this \
         page.</p>\n<div class=\"wide\"><svg class=\"seasons\" viewBox=\"0 0 {} {high}\" role=\"img\" aria-label=\"Seasons of \
         access rows\">\n{svg}</svg></div>\n</section>\n",
        BARS[1]
    )
}

/// The first seconds of the months between two seconds, and their names.
fn months(first: u32, last: u32) -> Vec<(u32, String)> {
    let start = times::word(first);
    let year: u32 = start.get(..4).and_then(|year| year.parse().ok()).unwrap_or(1970);
    let all = (year..).take(3).flat_map(|year| (1..=12).map(move |month| format!("{year}-{month:02}")));
    let begins = |month: &String| times::read(&format!("{month}-01"), Day::Begins).ok();
    all.filter_map(|month| Some((begins(&month)?, month)))
        .filter(|(second, _)| (first..last).contains(second))
        .collect()
}

/// The bar of a row, with its words on the left.
fn bar(season: &Season, y: f64, [from, to]: [f64; 2]) -> String {
    let row = &season.row;
    let class = match season.place {
        Place::Over(_) => "over",
        Place::Now(_) => "now",
        Place::ToCome(_) => "come",
    };
    let who = match row.subject {
        Subject::Uuid(uuid) => names::of_uuid(uuid).unwrap_or_else(|| format!("{}..", &uuid.to_string()[..8])),
        Subject::Role(role) => names::of_role(role).unwrap_or_else(|| words::subject(row.subject)),
        _ => words::subject(row.subject),
    };
    format!(
        "<text x=\"0\" y=\"{}\">{}</text>\n<rect class=\"bar-{class}\" x=\"{from:.1}\" y=\"{y}\" width=\"{:.1}\" height=\"14\" rx=\"3\">\
         <title>{}</title></rect>\n",
        y + 11.0,
        escape(&format!("{}  {who}  {}", row.number, words::resources_or_nothing(row))),
        (to - from).max(1.0),
        escape(&format!("{}; {}", times::period(row.period), season.place.words())),
    )
}

fn access_rows(terminal: &Terminal, clock: u32) -> String {
    let heads = ["Number", "Subject", "Permission", "Resources", "Season", "Worth a second look"].map(String::from);
    let row = |(row, marks): (&Ace, &Vec<Mark>)| {
        let marks: Vec<String> = marks.iter().map(|mark| mark.words()).collect();
        format!(
            "<tr><th scope=\"row\">{}</th><td class=\"mono\">{}</td><td class=\"mono\">{}</td><td>{}</td><td>{}</td>\
             <td class=\"mark\">{}</td></tr>\n",
            row.number,
            escape(&words::named_subject(row.subject)),
            row.permission,
            escape(&words::resources_or_nothing(row)),
            escape(&times::period(row.period)),
            escape(&marks.join("; ")),
        )
    };
    let rows: String = terminal.tables.aces().iter().zip(&marks::all(terminal, clock)).map(row).collect();
    section("Access control entries", &none_held(&rows), "", &heads, &rows)
}

fn none_held(rows: &str) -> String {
    if rows.is_empty() {
        "<p>None.</p>\n".into()
    } else {
        String::new()
    }
}

fn credentials(tables: &Tables) -> String {
    let heads = ["Number", "Subject", "Role", "Type", "Asserted roles"].map(String::from);
    let row = |row: &Cred| {
        format!(
            "<tr><th scope=\"row\">{}</th><td class=\"mono\">{}</td><td>{}</td><td>{}</td><td>{}</td></tr>\n",
            row.number,
            escape(&names::beside(row.subject.to_string(), names::of_number(row.number))),
            escape(&words::named_role(row.role)),
            row.kind,
            words::asserted(&row.asserted),
        )
    };
    let rows: String = tables.creds().iter().map(row).collect();
    section("Credentials", &none_held(&rows), "", &heads, &rows)
}

fn waiting(terminal: &Terminal) -> String {
    let heads = ["Sender", "Record"].map(String::from);
    let slots = terminal.waiting.slots();
    let rows = slots.iter().map(|slot| {
        let (sender, record) = (escape(&words::named_sender(slot.sender)), words::record(&slot.record));
        format!("<tr><th scope=\"row\">{sender}</th><td class=\"mono\">{}</td></tr>\n", escape(&record))
    });
    let rows: String = rows.collect();
    let round = words::round(terminal.waiting.last_taken());
    let before = format!("<p>{} of {} places are taken; the round {round}.</p>\n", slots.len(), Waiting::CAPACITY);
    match rows.is_empty() {
        true => format!("<section>\n<h2>Waiting records</h2>\n{before}</section>\n"),
        false => section("Waiting records", &before, "", &heads, &rows),
    }
}

fn footer(by: &str) -> String {
    format!("<footer>\n<p>Written by {}. Each right is an answer of the proved library.</p>\n</footer>\n", escape(by))
}

#[cfg(test)]
mod tests {
    use super::*;

    #[test]
    fn letters_stand_for_themselves() {
        assert_eq!(escape("<a href='x'>&\"</a>"), "&lt;a href=&#39;x&#39;&gt;&amp;&quot;&lt;/a&gt;");
    }
}
