//! Whether the partners of a yard are isolated from everybody else, and who could
//! end it. Each answer is the library's.

use std::path::Path;

use serde_json::{json, Value};
use tillerclover::yards::Isolation;
use tillerclover::{Permission, Resource, Set, Subject, Tables, Terminal, Uuid, ANYONE};

use crate::colour::{paint, Tone};
use crate::error::{name, one_line};
use crate::report::{columns, Report, Status};
use crate::senders::{credential_json, Sender};
use crate::who::ROLES_ARE_OPEN;
use crate::{names, words};

/// The words before a list of those who are left out.
const ALL_BUT: &str = "all-but";
/// The word for anybody in clear, who has no number.
const CLEAR: &str = "clear";

/// Senders of one yard, each once.
#[derive(Clone, Debug, PartialEq, Eq)]
pub struct Yard {
    /// Its name, empty where it has none.
    pub name: String,
    /// Credential numbers; 0 is anybody in clear.
    pub senders: Vec<u16>,
}

/// What the library says of a list of senders, and of whom it speaks.
#[derive(Clone, Copy, Debug, PartialEq, Eq)]
pub struct Finding {
    /// What it says.
    pub isolation: Isolation,
    /// The sender that it names.
    pub sender: Option<u16>,
}

/// Somebody of no yard.
#[derive(Clone, Copy, Debug, PartialEq, Eq)]
pub struct Other {
    /// Who.
    pub sender: Sender,
    /// Alone. Whoever is isolated cannot end what others have.
    pub finding: Finding,
}

// ---- what is written

/// Numbers, ranges and names between commas; after the words `all-but`, all credential rows but these.
pub fn senders(list: &str, tables: &Tables) -> Result<Vec<u16>, String> {
    let rows: Vec<u16> = tables.creds().iter().map(|row| row.number).collect();
    if let Some(rest) = list.trim().strip_prefix(ALL_BUT).filter(|rest| rest.starts_with([' ', ':'])) {
        let left_out = listed(&rest[1..], &rows)?;
        let senders: Vec<u16> = rows.into_iter().filter(|number| !left_out.contains(number)).collect();
        return if senders.is_empty() { Err(format!("'{list}': no credential row is left")) } else { Ok(senders) };
    }
    listed(list, &rows)
}

fn listed(list: &str, rows: &[u16]) -> Result<Vec<u16>, String> {
    let mut senders = Vec::new();
    for word in list.split(',').map(str::trim) {
        let numbers = match word {
            CLEAR => vec![ANYONE],
            "" => return Err(format!("'{list}': credential numbers between commas, such as 7,8,9")),
            "0" => return Err(format!("0 is no credential number; anybody in clear is the word {CLEAR}")),
            _ => numbered(word, rows)?,
        };
        for number in numbers {
            if senders.contains(&number) {
                return Err(format!("{} stands twice", short(number)));
            }
            senders.push(number);
        }
    }
    Ok(senders)
}

/// The numbers of a word: one, the credential rows of a range, or the partner of a name.
fn numbered(word: &str, rows: &[u16]) -> Result<Vec<u16>, String> {
    if let Ok(number) = word.parse() {
        return Ok(vec![number]);
    }
    let ends = word.split_once('-').and_then(|(first, last)| Some((first.parse().ok()?, last.parse().ok()?)));
    if let Some((first, last)) = ends {
        let inside: Vec<u16> = rows.iter().copied().filter(|number| (first..=last).contains(number)).collect();
        return if inside.is_empty() { Err(format!("no credential row has a number of {word}")) } else { Ok(inside) };
    }
    let named = names::partner(word).map(|found| found.map(|partner| vec![partner.number]));
    named.unwrap_or_else(|| Err(format!("'{word}' is no credential number, which is 1 to 65535, or {CLEAR}")))
}

/// The yards, each as NAME=LIST; nobody is of two.
pub fn parse(texts: &[String], tables: &Tables) -> Result<Vec<Yard>, String> {
    let mut yards: Vec<Yard> = Vec::new();
    for text in texts {
        let (name, list) = text
            .split_once('=')
            .filter(|(name, _)| !name.is_empty())
            .ok_or_else(|| format!("'{text}': a yard is its name and its credential numbers, such as north=7,8,9"))?;
        let yard = Yard {
            name: name.into(),
            senders: senders(list, tables).map_err(|error| format!("yard {name}: {error}"))?,
        };
        for other in &yards {
            if other.name == yard.name {
                return Err(format!("yard {name} stands twice"));
            }
            if let Some(both) = yard.senders.iter().find(|number| other.senders.contains(number)) {
                let both = words::sender(*both);
                return Err(format!("{both} is of yard {} and of yard {name}; nobody may be of two", other.name));
            }
        }
        yards.push(yard);
    }
    Ok(yards)
}

/// Each number has a credential row, or absent ones are asked for.
pub fn known(yards: &[Yard], tables: &Tables, absent: bool) -> Result<(), String> {
    let rows: Vec<u16> = tables.creds().iter().map(|row| row.number).collect();
    let unknown = |number: &&u16| **number != ANYONE && !rows.contains(number);
    match yards.iter().flat_map(|yard| &yard.senders).find(unknown) {
        Some(number) if !absent => {
            Err(format!("no credential row has the number {number}; --absent asks of it all the same"))
        }
        _ => Ok(()),
    }
}

// ---- what is asked

impl Yard {
    /// What the library says of its senders.
    pub fn ask(&self, terminal: &Terminal) -> Finding {
        Finding::of(terminal, &self.senders)
    }

    /// Its senders in words.
    pub fn list(&self) -> String {
        let words: Vec<String> = self.senders.iter().map(|&number| short(number)).collect();
        words.join(", ")
    }
}

impl Finding {
    fn of(terminal: &Terminal, senders: &[u16]) -> Finding {
        let isolation = terminal.isolated(senders);
        let entry = match isolation {
            Isolation::NamesOwner { entry } | Isolation::MayAlter { entry, .. } => entry,
            _ => 0,
        };
        Finding { isolation, sender: entry.checked_sub(1).and_then(|place| senders.get(place)).copied() }
    }

    /// Why its sender is not isolated, or why nobody is, without the sender's name; none where they are.
    pub fn why(&self, tables: &Tables) -> Option<String> {
        Some(match self.isolation {
            Isolation::Isolated => return None,
            Isolation::NoOwner => "nobody owns the terminal, so that anybody may write".into(),
            Isolation::NamesOwner { .. } => format!("is {}", owner_of(tables, self.sender)),
            Isolation::MayAlter { row, .. } => altering(tables, row),
            other => other.to_string(),
        })
    }

    /// The same with the sender's name.
    pub fn reason(&self, tables: &Tables) -> Option<String> {
        let who = self.sender.map(|number| format!("{} ", named(tables, number))).unwrap_or_default();
        self.why(tables).map(|why| who + &why)
    }

    fn json(&self, terminal: &Terminal) -> Value {
        let tables = &terminal.tables;
        let row = match self.isolation {
            Isolation::MayAlter { row, .. } => tables.aces().get(row - 1).map(|row| row.number),
            _ => None,
        };
        self.reason(tables).map_or(Value::Null, |words| {
            json!({
                "number": self.isolation.number(),
                "words": words,
                "sender": self.sender.map(|number| sender_json(tables, number)),
                "row": row,
            })
        })
    }
}

/// Those of no yard.
pub fn others(terminal: &Terminal, yards: &[Yard]) -> Vec<Other> {
    let number = |sender: &Sender| match sender {
        Sender::Credential(row) => row.number,
        _ => ANYONE,
    };
    let outside = |sender: &Sender| !yards.iter().any(|yard| yard.senders.contains(&number(sender)));
    let senders = Sender::all(&terminal.tables).into_iter().filter(outside);
    senders.map(|sender| Other { sender, finding: Finding::of(terminal, &[number(&sender)]) }).collect()
}

// ---- in words

fn short(number: u16) -> String {
    match number {
        ANYONE => CLEAR.into(),
        _ => names::beside(number.to_string(), names::of_number(number)),
    }
}

fn subject_of(tables: &Tables, number: u16) -> Option<Uuid> {
    tables.creds().iter().find(|row| row.number == number).map(|row| row.subject)
}

fn named(tables: &Tables, number: u16) -> String {
    match subject_of(tables, number) {
        Some(subject) => format!("{} of {subject}", words::named_sender(number)),
        None => words::named_sender(number),
    }
}

/// Which owner has the sender's subject.
fn owner_of(tables: &Tables, sender: Option<u16>) -> String {
    let subject = sender.and_then(|number| subject_of(tables, number)).unwrap_or_default();
    let mut owned: Vec<String> = Vec::new();
    if tables.owner() == subject {
        owned.push("the device owner".into());
    }
    let rows = Resource::WITH_ROW_OWNER.into_iter().filter(|&resource| tables.row_owner(resource) == Some(subject));
    owned.extend(rows.map(|resource| format!("the row owner of {resource}")));
    owned.join(" and ")
}

/// What the access row at a place, counted from 1, gives on security resources.
fn altering(tables: &Tables, place: usize) -> String {
    let rows = tables.aces();
    let Some(row) = rows.get(place - 1) else { return "may write".into() };
    let letters = row.permission.without(Permission::RETRIEVE).without(Permission::NOTIFY);
    let security: Vec<Resource> = row.resources.resources().filter(|resource| resource.is_security()).collect();
    let resources = words::set(Set::of(&security)).join(" ");
    let subject = words::named_subject(row.subject);
    format!("may be given {letters} on {resources} by access row {}, which is for {subject}", row.number)
}

fn sender_json(tables: &Tables, number: u16) -> Value {
    match (number, subject_of(tables, number)) {
        (ANYONE, _) => json!({ "kind": "clear" }),
        (_, subject) => credential_json(number, subject),
    }
}

/// Whether a reason rests on a row for a role.
pub fn by_role(terminal: &Terminal, finding: &Finding) -> bool {
    let Isolation::MayAlter { row, .. } = finding.isolation else { return false };
    matches!(terminal.tables.aces().get(row - 1), Some(row) if matches!(row.subject, Subject::Role(_)))
}

/// The answer of a line.
pub fn answer(terminal: &Terminal, finding: &Finding) -> String {
    match finding.reason(&terminal.tables) {
        None => paint(Tone::Good, "isolated"),
        Some(reason) => format!("{}: {reason}", paint(Tone::Bad, "not isolated")),
    }
}

// ---- reports

/// The report of one list of senders, in a sound terminal.
pub fn isolated(path: &Path, terminal: &Terminal, yard: &Yard) -> Report {
    let finding = yard.ask(terminal);
    let mut text = format!("{} in {}: {}\n", yard.list(), name(path), answer(terminal, &finding));
    if by_role(terminal, &finding) {
        text += &format!("{ROLES_ARE_OPEN}\n");
    }
    let mut json = yard_json(terminal, yard, &finding);
    json["file"] = json!(path.display().to_string());
    Report::new(text, json, Status::of(finding.isolation.is_isolated()))
}

/// What ends it, wherever all yards are isolated.
pub const UNTIL: &str = "\
Each yard gets what it would get without the others, until somebody of no yard sets an owner, clears the terminal, or stores a
yard's credential row or an access row that gives create, update or delete on a security resource. Ask again after that.";

/// What is to be reported wherever they are not.
const NOT_ALL: &str = "Whoever is not isolated could disturb every yard.";

/// The report of yards, in a sound terminal.
pub fn report(path: &Path, terminal: &Terminal, yards: &[Yard]) -> Report {
    let findings: Vec<Finding> = yards.iter().map(|yard| yard.ask(terminal)).collect();
    let all = findings.iter().all(|finding| finding.isolation.is_isolated());
    let lines = yards.iter().zip(&findings);
    let lines = lines
        .map(|(yard, finding)| format!("  {}\t{}\t{}", one_line(&yard.name), yard.list(), answer(terminal, finding)));
    let mut text = format!("yards in {}\n{}", name(path), columns(&lines.collect::<Vec<_>>()));
    let (could, could_not): (Vec<Other>, Vec<Other>) =
        others(terminal, yards).into_iter().partition(|other| !other.finding.isolation.is_isolated());
    let ends = |other: &Other| {
        format!("  {}\t{}", other.sender.columns(), other.finding.why(&terminal.tables).unwrap_or_default())
    };
    let other = |other: &Other| format!("  {}", other.sender.columns());
    text += &part("of no yard, and could end it", could.iter().map(ends).collect());
    text += &part("of no yard, and could not", could_not.iter().map(other).collect());
    if findings.iter().chain(could.iter().map(|other| &other.finding)).any(|finding| by_role(terminal, finding)) {
        text += &format!("\n{ROLES_ARE_OPEN}\n");
    }
    text += &format!("\n{}\n", if all { UNTIL } else { NOT_ALL });
    let json = json!({
        "file": path.display().to_string(),
        "isolated": all,
        "yards": yards.iter().zip(&findings).map(|(yard, finding)| named_json(terminal, yard, finding)).collect::<Vec<_>>(),
        "others": could.iter().chain(&could_not).map(|other| json!({
            "sender": other.sender.json(),
            "could_end": !other.finding.isolation.is_isolated(),
            "reason": other.finding.json(terminal),
        })).collect::<Vec<_>>(),
    });
    Report::new(text, json, Status::of(all))
}

fn part(title: &str, lines: Vec<String>) -> String {
    match lines.len() {
        0 => format!("\n{title}: nobody\n"),
        _ => format!("\n{title}\n{}", columns(&lines)),
    }
}

fn yard_json(terminal: &Terminal, yard: &Yard, finding: &Finding) -> Value {
    json!({
        "senders": yard.senders,
        "isolated": finding.isolation.is_isolated(),
        "reason": finding.json(terminal),
    })
}

fn named_json(terminal: &Terminal, yard: &Yard, finding: &Finding) -> Value {
    let mut json = yard_json(terminal, yard, finding);
    json["name"] = json!(yard.name);
    json
}

#[cfg(test)]
mod tests {
    use super::*;

    fn fault(texts: &[&str]) -> String {
        let texts: Vec<String> = texts.iter().map(|text| text.to_string()).collect();
        parse(&texts, &Terminal::new().tables).expect_err("a fault")
    }

    #[test]
    fn yards_in_words() {
        let yards = parse(&["a=7, 8".into(), "b=clear,65535".into()], &Terminal::new().tables).expect("two yards");
        assert_eq!(yards[0], Yard { name: "a".into(), senders: vec![7, 8] });
        assert_eq!((yards[1].senders.clone(), yards[1].list()), (vec![0, 65535], "clear, 65535".into()));
    }

    #[test]
    fn ranges_names_and_all_but() {
        let mut tables = Terminal::new().tables;
        let row = |number: u8| tillerclover::Cred {
            number: number.into(),
            subject: Uuid([number; 16]),
            ..Default::default()
        };
        tables.set_creds(&[row(5), row(7), row(9), row(12)]);
        names::Names::read("9 Gravel Co\n12 North-1").expect("names").choose();
        for (list, found) in [
            ("6-9,12", vec![7, 9, 12]),
            ("gravel,5", vec![9, 5]),
            ("north-1", vec![12]),
            ("all-but 5, gravel", vec![7, 12]),
            ("all-but:6-12", vec![5]),
        ] {
            assert_eq!(senders(list, &tables), Ok(found), "{list}");
        }
        for (list, error) in [
            ("13-20", "no credential row has a number of 13-20"),
            ("gravle", "'gravle' is no name; did you mean Gravel Co?"),
            ("9,8-9", "9 (Gravel Co) stands twice"),
            ("all-but 5-12", "'all-but 5-12': no credential row is left"),
        ] {
            assert_eq!(senders(list, &tables), Err(error.into()), "{list}");
        }
        names::Names::default().choose();
    }

    #[test]
    fn faults() {
        assert!(fault(&["7,8"]).contains("a yard is its name"));
        assert!(fault(&["=7"]).contains("a yard is its name"));
        assert!(fault(&["a="]).contains("such as 7,8,9"));
        assert!(fault(&["a=7,,8"]).contains("such as 7,8,9"));
        assert_eq!(fault(&["a=7,8,7"]), "yard a: 7 stands twice");
        assert_eq!(fault(&["a=clear,clear"]), "yard a: clear stands twice");
        assert!(fault(&["a=0"]).contains("the word clear"));
        assert!(fault(&["a=65536"]).contains("is no credential number"));
        assert!(fault(&["a=-1"]).contains("is no credential number"));
        assert_eq!(fault(&["a=7", "a=8"]), "yard a stands twice");
        assert_eq!(fault(&["a=7,8", "b=9,8"]), "credential 8 is of yard a and of yard b; nobody may be of two");
    }
}
