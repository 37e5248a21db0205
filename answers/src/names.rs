//! Names of partners and roles, for people: printed next to numbers and UUIDs, and
//! taken wherever these are written. The library never sees them.

use std::cell::RefCell;

use tillerclover::{Role, Tables, Uuid};

use crate::error::one_line;
use crate::parse::{did_you_mean, role};
use crate::steps::without_comment;

/// A partner with a name.
#[derive(Clone, Debug, PartialEq, Eq)]
pub struct Partner {
    /// Its credential number.
    pub number: u16,
    /// Its UUID: of the names, or of its credential row.
    pub subject: Option<Uuid>,
    /// Its name.
    pub name: String,
}

/// Whom a name represents.
#[derive(Clone, Debug, PartialEq, Eq)]
pub enum Named {
    /// A partner.
    Partner(Partner),
    /// A role.
    Role(Role),
}

/// The names of a yard.
#[derive(Clone, Debug, Default, PartialEq, Eq)]
pub struct Names {
    partners: Vec<Partner>,
    roles: Vec<(Role, String)>,
}

thread_local! {
    static NAMES: RefCell<Names> = RefCell::default();
}

/// Only letters and digits, in small letters: how names are compared.
fn folded(text: &str) -> String {
    text.chars().filter(|letter| letter.is_alphanumeric()).flat_map(char::to_lowercase).collect()
}

/// Whether a name begins so, or from one of its words on.
fn has(name: &str, begin: &str) -> bool {
    let words: Vec<&str> = name.split_whitespace().collect();
    !begin.is_empty() && (0..words.len()).any(|place| folded(&words[place..].concat()).starts_with(begin))
}

impl Names {
    /// The names of a text, one to a line: `10 Northfield Haulage`, `10 UUID Northfield Haulage` or `role 7@2 foreman`.
    pub fn read(text: &str) -> Result<Names, String> {
        let mut names = Names::default();
        for (place, line) in text.lines().enumerate() {
            let line = without_comment(line);
            if !line.is_empty() {
                names.add(line).map_err(|error| format!("line {}: {error}", place + 1))?;
            }
        }
        Ok(names)
    }

    fn add(&mut self, line: &str) -> Result<(), String> {
        let first = line.split_whitespace().next().unwrap_or_default();
        let rest = line[first.len()..].trim_start();
        if first == "role" {
            let word = rest.split_whitespace().next().unwrap_or_default();
            let (role, name) = (role(word)?, self.new_name(rest[word.len()..].trim_start())?);
            if self.roles.iter().any(|(other, _)| *other == role) {
                return Err(format!("role {role} has a name already"));
            }
            self.roles.push((role, name));
            return Ok(());
        }
        let number: u16 = first.parse().ok().filter(|&number| number > 0).ok_or_else(|| {
            format!("'{first}': a line is a credential number and a name, or role, its number and a name")
        })?;
        if self.partners.iter().any(|other| other.number == number) {
            return Err(format!("credential {number} has a name already"));
        }
        let word = rest.split_whitespace().next().unwrap_or_default();
        let subject: Option<Uuid> = word.parse().ok();
        let name = if subject.is_some() { rest[word.len()..].trim_start() } else { rest };
        let name = self.new_name(name)?;
        self.partners.push(Partner { number, subject, name });
        Ok(())
    }

    /// A name that is no number and none of the names before it.
    fn new_name(&self, name: &str) -> Result<String, String> {
        let own = folded(name);
        if !own.chars().any(char::is_alphabetic) {
            return Err(format!("'{name}' is no name: it has no letter"));
        }
        match self.all().into_iter().find(|other| folded(other) == own) {
            Some(other) => Err(format!("'{name}' is a name already, '{other}'")),
            None => Ok(one_line(name)),
        }
    }

    /// The same with the UUIDs of credential rows. A name whose UUID is another one is out of date.
    pub fn with(mut self, tables: &Tables) -> Result<Names, String> {
        for row in tables.creds() {
            let Some(partner) = self.partners.iter_mut().find(|partner| partner.number == row.number) else { continue };
            match partner.subject {
                Some(subject) if subject != row.subject => {
                    let Partner { number, name, .. } = partner;
                    return Err(format!(
                        "{number} {name} is {subject}, and credential row {number} is {}",
                        row.subject
                    ));
                }
                _ => partner.subject = Some(row.subject),
            }
        }
        Ok(self)
    }

    /// Makes them the names of all that this thread reads and writes.
    pub fn choose(self) {
        NAMES.set(self);
    }

    fn all(&self) -> Vec<&String> {
        let partners = self.partners.iter().map(|partner| &partner.name);
        partners.chain(self.roles.iter().map(|(_, name)| name)).collect()
    }

    /// Whom a word represents: a whole name, or the only one that begins so, or of which a word does.
    fn find(&self, word: &str) -> Result<Named, String> {
        let own = folded(word);
        let like: Vec<&String> = self.all().into_iter().filter(|name| has(name, &own)).collect();
        let exact = like.iter().find(|name| folded(name) == own).copied();
        let found = match (exact, &like[..]) {
            (Some(name), _) => name,
            (None, [name]) => name,
            (None, []) => {
                let known: Vec<String> = self.all().into_iter().cloned().collect();
                return Err(format!("'{word}' is no name{}", did_you_mean(word, &known)));
            }
            (None, several) => {
                let several: Vec<&str> = several.iter().map(|name| name.as_str()).collect();
                return Err(format!("'{word}' may be {}", several.join(" or ")));
            }
        };
        let partner = self.partners.iter().find(|partner| partner.name == *found).cloned().map(Named::Partner);
        let role = || self.roles.iter().find(|(_, name)| name == found).map(|(role, _)| Named::Role(*role));
        partner.or_else(role).ok_or_else(|| format!("'{word}' is no name"))
    }
}

/// Whom a word represents by the chosen names; none where there are no names.
pub fn find(word: &str) -> Option<Result<Named, String>> {
    NAMES.with_borrow(|names| (!names.all().is_empty()).then(|| names.find(word)))
}

/// The partner that a word names; none where there are no names.
pub fn partner(word: &str) -> Option<Result<Partner, String>> {
    let partner = |found: Named| match found {
        Named::Partner(partner) => Ok(partner),
        Named::Role(role) => Err(format!("'{word}' is the name of role {role}, and of no partner")),
    };
    find(word).map(|found| found.and_then(partner))
}

/// The UUID of the partner that a word names; none where there are no names.
pub fn subject(word: &str) -> Option<Result<Uuid, String>> {
    partner(word).map(|found| found.and_then(Partner::known_subject))
}

impl Partner {
    /// Its UUID, where it is known.
    pub fn known_subject(self) -> Result<Uuid, String> {
        let Partner { number, subject, name } = self;
        subject.ok_or_else(|| {
            format!("the UUID of {name} is not known: there is no credential row {number}, and the names have none")
        })
    }
}

/// The name of a partner by its number.
pub fn of_number(number: u16) -> Option<String> {
    NAMES.with_borrow(|names| names.partners.iter().find(|one| one.number == number).map(|one| one.name.clone()))
}

/// The name of a partner by its UUID.
pub fn of_uuid(uuid: Uuid) -> Option<String> {
    NAMES.with_borrow(|names| names.partners.iter().find(|one| one.subject == Some(uuid)).map(|one| one.name.clone()))
}

/// The name of a role.
pub fn of_role(role: Role) -> Option<String> {
    NAMES.with_borrow(|names| names.roles.iter().find(|(one, _)| *one == role).map(|(_, name)| name.clone()))
}

/// All names that were chosen, for completion.
pub fn all() -> Vec<String> {
    NAMES.with_borrow(|names| names.all().into_iter().cloned().collect())
}

/// Whether the names' UUIDs are those of these tables.
pub fn agree_with(tables: &Tables) -> bool {
    NAMES.with_borrow(|names| names.clone().with(tables).as_ref() == Ok(names))
}

/// A name after what it represents, in parentheses, where there is one.
pub fn beside(what: String, name: Option<String>) -> String {
    match name {
        Some(name) => format!("{what} ({name})"),
        None => what,
    }
}

#[cfg(test)]
mod tests {
    use super::*;

    const TEXT: &str =
        "\u{20}# the yard\n10 Northfield Haulage\n11 11111111-1111-1111-1111-111111111111 North Gravel\n\
                        role 7@2 foreman # of the works\n";

    #[test]
    fn names_and_whom_they_stand_for() {
        let names = Names::read(TEXT).expect("names");
        let number = |word: &str| match names.find(word) {
            Ok(Named::Partner(partner)) => Ok(partner.number),
            Ok(Named::Role(role)) => Err(role.to_string()),
            Err(error) => Err(error),
        };
        for (word, found) in [("northfield", 10), ("NORTHFIELD-haulage", 10), ("north-g", 11), ("gravel", 11)] {
            assert_eq!(number(word), Ok(found), "{word}");
        }
        assert_eq!(number("fore"), Err("7@2".into()));
        assert_eq!(number("north"), Err("'north' may be Northfield Haulage or North Gravel".into()));
        assert_eq!(number("northfeild"), Err("'northfeild' is no name; did you mean Northfield Haulage?".into()));
        assert_eq!(number("-"), Err("'-' is no name".into()));
        names.choose();
        assert_eq!(of_number(10).as_deref(), Some("Northfield Haulage"));
        assert_eq!(of_uuid(Uuid([0x11; 16])).as_deref(), Some("North Gravel"));
        assert_eq!(of_role(Role { authority: 2, number: 7 }).as_deref(), Some("foreman"));
        assert!(subject("northfield").unwrap().unwrap_err().contains("is not known"));
    }

    #[test]
    fn what_is_wrong_is_named() {
        for (text, error) in [
            ("Northfield", "line 1: 'Northfield': a line is a credential number and a name"),
            ("0 Northfield", "line 1: '0': a line is"),
            ("10", "line 1: '' is no name: it has no letter"),
            ("10 77", "line 1: '77' is no name: it has no letter"),
            ("10 A\n10 B", "line 2: credential 10 has a name already"),
            ("10 North Field\n11 northfield", "line 2: 'northfield' is a name already, 'North Field'"),
            ("role x foreman", "line 1: the role is 0 to 65535, not 'x'"),
            ("role 7 a\nrole 7@0 b", "line 2: role 7@0 has a name already"),
        ] {
            let said = Names::read(text).expect_err(text);
            assert!(said.starts_with(error), "{text}: {said}");
        }
        let mut tables = tillerclover::Terminal::new().tables;
        let row = tillerclover::Cred { number: 11, subject: Uuid([5; 16]), ..Default::default() };
        tables.set_creds(&[row]);
        let said = Names::read(TEXT).unwrap().with(&tables).unwrap_err();
        assert!(said.contains("11 North Gravel is 11111111-"), "{said}");
        let names = Names::read("11 Gravel").unwrap().with(&tables).unwrap();
        assert_eq!(names.partners[0].subject, Some(row.subject));
    }

    #[test]
    fn a_name_is_no_order_to_a_terminal() {
        let names = Names::read("7 a\u{1b}[2J\u{202e}b").unwrap();
        assert_eq!(names.partners[0].name, "a\\u{1b}[2J\\u{202e}b");
    }
}
