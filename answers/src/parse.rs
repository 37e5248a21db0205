//! Records that people type: hexadecimal digits, or words such as
//! `UPDATE /tare as 5 hex:00ff`.

use std::collections::BTreeMap;

use tillerclover::{
    record, Ace, Asserted, Body, Connection, Cred, PermissionError, Resource, Role, State, Subject, Verb,
};
use tillerclover::{Uuid, Wildcards, ANYONE};

use crate::names::Named;
use crate::steps::without_comment;
use crate::times::{self, Day};
use crate::{hex, names};

/// The records that arguments name. One in quotes is a record by itself; without quotes a record in words begins at
/// each verb.
pub fn records(arguments: &[String]) -> Result<Vec<Vec<u8>>, String> {
    let mut texts: Vec<String> = Vec::new();
    let mut open = false;
    for argument in arguments {
        let begins = Verb::named(argument).is_some();
        match texts.last_mut() {
            Some(last) if open && !begins && !argument.contains(char::is_whitespace) => {
                last.push(' ');
                last.push_str(argument);
            }
            _ => {
                texts.push(argument.clone());
                open = begins;
            }
        }
    }
    texts.iter().map(|text| one(text).map_err(|error| format!("record '{text}': {error}"))).collect()
}

/// One record in words or digits.
pub fn one(text: &str) -> Result<Vec<u8>, String> {
    let mut words = text.split_whitespace();
    let first = words.next().ok_or("it is empty")?;
    let Some(verb) = Verb::named(first) else {
        return digits(text);
    };
    let name = words.next().ok_or_else(|| format!("which resource? {}", known_resources()))?;
    let resource = resource(name).map_err(|error| format!("{error}; {}", known_resources()))?;
    let mut rest: Vec<&str> = words.collect();
    let mut sender = ANYONE;
    if rest.first() == Some(&"as") {
        let number = rest.get(1).ok_or("'as' needs a credential number")?;
        sender = credential(number)?;
        rest.drain(..2);
    }
    Ok(record(verb, resource, sender, &body(verb, resource, &rest)?))
}

fn digits(text: &str) -> Result<Vec<u8>, String> {
    let word = text.split_whitespace().next().unwrap_or_default();
    if let Some(digits) = text.strip_prefix("hex:") {
        return hex::read(digits);
    }
    if !word.starts_with(|letter: char| letter.is_ascii_hexdigit())
        || word.chars().all(char::is_alphabetic) && word.len() > 2
    {
        let verbs: Vec<String> = Verb::ALL.iter().map(Verb::to_string).collect();
        let near = coap(word).unwrap_or_else(|| did_you_mean(word, &verbs));
        let verbs = either(&verbs);
        return Err(format!("unknown word '{word}'{near}; a record is hexadecimal digits, or begins with {verbs}"));
    }
    hex::read(text)
}

/// The verb of a method of CoAP.
fn coap(word: &str) -> Option<String> {
    let verb = match word.to_uppercase().as_str() {
        "GET" => Verb::RETRIEVE,
        "POST" => Verb::UPDATE,
        "PUT" => Verb::CREATE,
        _ => return None,
    };
    Some(format!(", which of CoAP is {verb} here"))
}

fn known_resources() -> String {
    format!("there are {}", resource_names().join(", "))
}

fn resource_names() -> Vec<String> {
    Resource::ALL.iter().map(Resource::to_string).collect()
}

/// A resource by its name.
pub fn resource(name: &str) -> Result<Resource, String> {
    Resource::named(name).ok_or_else(|| format!("unknown resource '{name}'{}", did_you_mean(name, &resource_names())))
}

/// A verb by its name.
pub fn verb(name: &str) -> Result<Verb, String> {
    let verbs: Vec<String> = Verb::ALL.iter().map(Verb::to_string).collect();
    Verb::named(name)
        .ok_or_else(|| format!("unknown verb '{name}'{}; it is {}", did_you_mean(name, &verbs), either(&verbs)))
}

/// A question about the word that looks most like it, where one does.
pub fn did_you_mean(word: &str, known: &[String]) -> String {
    let likeness = |one: &String| strsim::jaro_winkler(&one.to_lowercase(), &word.to_lowercase());
    let nearest = known.iter().map(|one| (likeness(one), one)).max_by(|(one, _), (other, _)| one.total_cmp(other));
    match nearest {
        Some((likeness, one)) if likeness > 0.8 => format!("; did you mean {one}?"),
        _ => String::new(),
    }
}

fn either(words: &[String]) -> String {
    match words {
        [] => String::new(),
        [one] => one.clone(),
        [all @ .., last] => format!("{} or {last}", all.join(", ")),
    }
}

/// A credential number, or the partner of a name.
pub fn credential(text: &str) -> Result<u16, String> {
    number_of("credential number", text)
        .or_else(|error| names::partner(text).map_or(Err(error), |found| found.map(|partner| partner.number)))
}

fn number_of(what: &str, text: &str) -> Result<u16, String> {
    text.parse().map_err(|_| format!("the {what} is 0 to 65535, not '{text}'"))
}

/// The body that the words say.
fn body(verb: Verb, resource: Resource, words: &[&str]) -> Result<Vec<u8>, String> {
    let rows = matches!((verb, resource), (Verb::DELETE, Resource::CRED | Resource::ACL2));
    let Some(first) = words.first() else {
        let which = if resource == Resource::CRED { "number=.., subject=.. or all" } else { "number=.. or all" };
        return if rows { Err(format!("which rows of {resource}? write {which}")) } else { Ok(Vec::new()) };
    };
    if rows && words == ["all"] {
        return Ok(Vec::new());
    }
    if let Some(digits) = first.strip_prefix("hex:") {
        return hex::read(&[&[digits], &words[1..]].concat().concat());
    }
    if first.starts_with("text:") {
        return Ok(words.join(" ").as_bytes()["text:".len()..].to_vec());
    }
    let mut fields = Fields::read(words)?;
    let known = self::fields(verb, resource);
    if let Some(key) = fields.0.keys().find(|key| !known.is_empty() && !known.contains(key)) {
        let names: Vec<String> = known.iter().map(|key| key.to_string()).collect();
        let near = did_you_mean(key, &names);
        return Err(format!("{key}= is no part of such a body{near}; it takes {}=", known.join("=, ")));
    }
    let body = fields.body(verb, resource)?;
    match fields.0.keys().next() {
        Some(key) => Err(format!("{key}= is no part of such a body")),
        None => Ok(body.to_bytes()),
    }
}

/// An access row in words, as the body that stores it.
pub fn access_row(text: &str) -> Result<Ace, String> {
    row(text, "an access row", |fields| fields.ace())
}

/// A credential row in words, as the body that stores it.
pub fn credential_row(text: &str) -> Result<Cred, String> {
    row(text, "a credential row", |fields| fields.cred())
}

fn row<R>(text: &str, what: &str, read: impl Fn(&mut Fields) -> Result<R, String>) -> Result<R, String> {
    let mut fields = Fields::read(&text.split_whitespace().collect::<Vec<_>>())?;
    let row = read(&mut fields)?;
    match fields.0.keys().next() {
        Some(key) => Err(format!("{key}= is no part of {what}")),
        None => Ok(row),
    }
}

/// The rows of a text, one to a line; which line is wrong otherwise.
pub fn rows<R>(text: &str, read: fn(&str) -> Result<R, String>) -> Result<Vec<R>, String> {
    let lines = text.lines().enumerate().map(|(place, line)| (place + 1, without_comment(line)));
    let row = |(place, line)| read(line).map_err(|error| format!("line {place}: {error}"));
    lines.filter(|(_, line)| !line.is_empty()).map(row).collect()
}

/// Whether bytes are rows in words.
pub fn are_words(bytes: &[u8]) -> bool {
    let text = std::str::from_utf8(bytes).unwrap_or_default();
    let first = text.lines().map(without_comment).find(|line| !line.is_empty());
    first.is_some_and(|line| line.contains("number="))
}

/// The names of the fields that a body of the verb and the resource may have; other bodies are bytes or a text.
pub fn fields(verb: Verb, resource: Resource) -> &'static [&'static str] {
    match (verb, resource) {
        (Verb::UPDATE, Resource::DOXM) => &["owner", "row-owner"],
        (Verb::UPDATE, Resource::PSTAT) => &["state", "row-owner"],
        (Verb::UPDATE, Resource::CRED) => &["number", "subject", "role", "type", "row-owner"],
        (Verb::UPDATE, Resource::ACL2) => {
            &["number", "subject", "permission", "resources", "first", "last", "row-owner"]
        }
        (Verb::UPDATE, Resource::ROLES) => &["role", "last"],
        (Verb::DELETE, Resource::CRED) => &["number", "subject"],
        (Verb::DELETE, Resource::ACL2) => &["number"],
        _ => &[],
    }
}

/// The fields of a body that were not asked for yet.
struct Fields<'a>(BTreeMap<&'a str, &'a str>);

impl<'a> Fields<'a> {
    fn read(words: &[&'a str]) -> Result<Fields<'a>, String> {
        let mut fields = BTreeMap::new();
        for word in words {
            let (key, value) = word.split_once('=').ok_or_else(|| {
                format!("unknown word '{word}'; a body is hex:.., text:.. or fields such as number=5 (see --help)")
            })?;
            if fields.insert(key, value).is_some() {
                return Err(format!("{key}= stands twice"));
            }
        }
        Ok(Fields(fields))
    }

    fn body(&mut self, verb: Verb, resource: Resource) -> Result<Body, String> {
        let only = self.0.keys().next().copied();
        match (verb, resource) {
            (Verb::UPDATE, _) if only == Some("row-owner") => self.uuid("row-owner").map(Body::RowOwner),
            (Verb::UPDATE, Resource::DOXM) => self.uuid("owner").map(Body::Owner),
            (Verb::UPDATE, Resource::PSTAT) => self.state().map(Body::Target),
            (Verb::UPDATE, Resource::CRED) => self.cred().map(Body::Cred),
            (Verb::UPDATE, Resource::ACL2) => self.ace().map(Body::Ace),
            (Verb::UPDATE, Resource::ROLES) => {
                let role = self.role()?.ok_or("role= is missing")?;
                Ok(Body::Role(Asserted { role, last: self.second("last", Day::Ends)?.unwrap_or(u32::MAX) }))
            }
            (Verb::DELETE, Resource::CRED) if only == Some("subject") => self.uuid("subject").map(Body::Subject),
            (Verb::DELETE, Resource::CRED) => self.credential("number").map(Body::Number),
            (Verb::DELETE, Resource::ACL2) => self.number("number").map(Body::Number),
            _ => Err(format!("{verb} of {resource} has no body with fields; write hex:.. or text:..")),
        }
    }

    fn must(&mut self, key: &str) -> Result<&'a str, String> {
        self.0.remove(key).ok_or_else(|| format!("{key}= is missing"))
    }

    fn number(&mut self, key: &str) -> Result<u16, String> {
        number_of(key, self.must(key)?)
    }

    fn credential(&mut self, key: &str) -> Result<u16, String> {
        credential(self.must(key)?)
    }

    fn uuid(&mut self, key: &str) -> Result<Uuid, String> {
        match self.must(key)? {
            "none" => Ok(Uuid::NIL),
            text => match (text.parse::<Uuid>(), names::subject(text)) {
                (Ok(uuid), _) | (_, Some(Ok(uuid))) => Ok(uuid),
                (_, Some(Err(error))) => Err(format!("{key}={text}: {error}")),
                (Err(error), None) => Err(format!("{key}={text}: {error}")),
            },
        }
    }

    fn state(&mut self) -> Result<State, String> {
        let name = self.must("state")?;
        let names: Vec<String> = State::ALL.iter().map(State::to_string).collect();
        State::named(name)
            .ok_or_else(|| format!("unknown state '{name}'{}; it is {}", did_you_mean(name, &names), either(&names)))
    }

    fn role(&mut self) -> Result<Option<Role>, String> {
        self.0.remove("role").map(role).transpose()
    }

    fn second(&mut self, key: &str, day: Day) -> Result<Option<u32>, String> {
        self.0.remove(key).map(|text| times::read(text, day)).transpose()
    }

    fn cred(&mut self) -> Result<Cred, String> {
        let kind = self.0.remove("type").unwrap_or("0");
        Ok(Cred {
            number: self.credential("number")?,
            subject: self.uuid("subject")?,
            role: self.role()?.unwrap_or_default(),
            kind: kind
                .parse()
                .ok()
                .filter(|&kind| kind < 64)
                .ok_or_else(|| format!("the type is a number below 64, not '{kind}'"))?,
            ..Cred::default()
        })
    }

    fn ace(&mut self) -> Result<Ace, String> {
        let mut row =
            Ace { number: self.number("number")?, subject: subject(self.must("subject")?)?, ..Ace::default() };
        let letters = self.must("permission")?;
        row.permission = letters.parse().map_err(|error: PermissionError| format!("permission={letters}: {error}"))?;
        for name in self.must("resources")?.split(',').filter(|name| !name.is_empty()) {
            add_resource(&mut row, name)?;
        }
        row.period.first = self.second("first", Day::Begins)?.unwrap_or(row.period.first);
        row.period.last = self.second("last", Day::Ends)?.unwrap_or(row.period.last);
        Ok(row)
    }
}

/// A role: its number, with @ and its authority where that is not the works; or its name.
pub fn role(text: &str) -> Result<Role, String> {
    let (number, authority) = text.split_once('@').unwrap_or((text, "0"));
    let read = || Ok(Role { authority: number_of("authority", authority)?, number: number_of("role", number)? });
    match (read(), names::find(text)) {
        (Err(_), Some(Ok(Named::Role(role)))) => Ok(role),
        (Err(_), Some(Err(error))) => Err(error),
        (read, _) => read,
    }
}

fn subject(text: &str) -> Result<Subject, String> {
    if let Some(connection) = Connection::named(text) {
        return Ok(Subject::Connection(connection));
    }
    if let Some(text) = text.strip_prefix("role:") {
        return role(text).map(Subject::Role);
    }
    if let Ok(uuid) = text.parse() {
        return Ok(Subject::Uuid(uuid));
    }
    match names::find(text) {
        Some(Ok(Named::Role(role))) => Ok(Subject::Role(role)),
        Some(Ok(Named::Partner(partner))) => partner.known_subject().map(Subject::Uuid),
        Some(Err(error)) => Err(error),
        None => Err("a subject is a UUID, role:7, role:7@2 (of authority 2), auth-crypt or anon-clear".into()),
    }
    .map_err(|error| format!("subject={text}: {error}"))
}

fn add_resource(row: &mut Ace, name: &str) -> Result<(), String> {
    if let Some(sign) = Wildcards::written(name) {
        row.wildcards = row.wildcards | sign;
        return Ok(());
    }
    let resource =
        resource(name).map_err(|error| format!("{error}; {}, and the wildcards +, - and *", known_resources()))?;
    row.resources.0 |= tillerclover::Set::of(&[resource]).0;
    Ok(())
}

#[cfg(test)]
mod tests {
    use super::*;

    fn words(text: &str) -> Result<Vec<Vec<u8>>, String> {
        records(&text.split(' ').map(String::from).collect::<Vec<_>>())
    }

    #[test]
    fn words_without_quotes() {
        let two = words("update /tare as 5 hex:00ff retrieve /weight").unwrap();
        assert_eq!(two, [vec![0x52, 0x40, 0, 5, 0, 0xff], vec![0x22, 0, 0, 0]]);
        let quoted: Vec<String> = ["UPDATE /tare as 5 text:a lorry", "22 00 00 00"].map(String::from).to_vec();
        assert_eq!(records(&quoted).unwrap(), [b"\x52\x40\0\x05a lorry".to_vec(), vec![0x22, 0, 0, 0]]);
    }

    #[test]
    fn bodies_in_words() {
        for text in [
            "UPDATE /oic/sec/doxm owner=11111111-1111-1111-1111-111111111111",
            "UPDATE /oic/sec/doxm as 5 row-owner=none",
            "UPDATE /oic/sec/pstat as 5 state=RFPRO",
            "UPDATE /oic/sec/cred as 5 number=7 subject=22222222-2222-2222-2222-222222222222 role=7@2 type=1",
            "UPDATE /oic/sec/acl2 number=1 subject=role:7@2 permission=-RU-- resources=/weight,/tare,+ \
             first=2026-07-01T00:00:00 last=2026-09-30T23:59:59",
            "UPDATE /oic/sec/acl2 number=2 subject=anon-clear permission=-R--- resources=*",
            "UPDATE /oic/sec/roles as 7 role=7@2 last=2026-07-01T18:00:00",
            "DELETE /oic/sec/cred as 5 number=7",
            "DELETE /oic/sec/cred as 5 subject=22222222-2222-2222-2222-222222222222",
            "DELETE /oic/sec/acl2 all",
            "DELETE /oic/sec/cred as 5 all",
            "DELETE /tare as 5",
            "UPDATE /tare as 7 text:lorry",
            "UPDATE /tare as 7 hex:00ff",
        ] {
            assert_eq!(crate::words::record(&one(text).unwrap()), text);
        }
    }

    #[test]
    fn fields_are_those_that_bodies_take() {
        let values = [
            ("owner", "none"),
            ("row-owner", "none"),
            ("state", "RFPRO"),
            ("number", "7"),
            ("subject", "22222222-2222-2222-2222-222222222222"),
            ("role", "7@2"),
            ("type", "1"),
            ("permission", "RU"),
            ("resources", "/tare"),
            ("first", "5"),
            ("last", "9"),
        ];
        // A field is of a body where some body of these fields has it.
        let sets = || (1usize..1 << values.len()).filter(|set| set.count_ones() <= 6);
        for (verb, resource) in Verb::ALL.iter().flat_map(|verb| Resource::ALL.iter().map(move |one| (*verb, *one))) {
            let mut taken = 0;
            for set in sets() {
                let words: Vec<String> = (0..values.len())
                    .filter(|place| set >> place & 1 == 1)
                    .map(|place| format!("{}={}", values[place].0, values[place].1))
                    .collect();
                let words: Vec<&str> = words.iter().map(String::as_str).collect();
                taken |= if body(verb, resource, &words).is_ok() { set } else { 0 };
            }
            let names: Vec<&str> =
                (0..values.len()).filter(|place| taken >> place & 1 == 1).map(|place| values[place].0).collect();
            let mut listed = fields(verb, resource).to_vec();
            listed.retain(|name| Resource::WITH_ROW_OWNER.contains(&resource) || *name != "row-owner");
            let same = |one: &[&str], other: &[&str]| one.iter().all(|name| other.contains(name));
            let names: Vec<&str> = names
                .into_iter()
                .filter(|name| Resource::WITH_ROW_OWNER.contains(&resource) || *name != "row-owner")
                .collect();
            assert!(same(&names, &listed) && same(&listed, &names), "{verb} {resource}: {names:?}, {listed:?}");
        }
    }

    #[test]
    fn what_is_wrong_is_named() {
        for (text, error) in [
            ("UPDATE /tara", "unknown resource '/tara'; did you mean /tare?; there are"),
            ("UPDATE tare", "unknown resource 'tare'; did you mean /tare?"),
            ("UPDATE /steering", "unknown resource '/steering'; there are"),
            ("DELETE /oic/sec/acl2 as 5", "which rows of /oic/sec/acl2? write number=.. or all"),
            ("DELETE /oic/sec/cred", "which rows of /oic/sec/cred? write number=.., subject=.. or all"),
            ("UPDATE /oic/sec/pstat state=RFNPO", "unknown state 'RFNPO'; did you mean RFNOP?"),
            ("FETCH /tare", "unknown word 'FETCH'"),
            ("UPDAET /tare", "unknown word 'UPDAET'; did you mean UPDATE?"),
            ("BEGIN", "unknown word 'BEGIN'"),
            ("UPDATE /tare as", "'as' needs a credential number"),
            ("UPDATE /tare as x", "the credential number is 0 to 65535, not 'x'"),
            ("UPDATE /tare as 5 lorry", "unknown word 'lorry'"),
            ("UPDATE /tare hex:123", "3 hexadecimal digits: byte 1 lacks its second"),
            ("5040000", "7 hexadecimal digits"),
            ("UPDATE /oic/sec/pstat state=READY", "unknown state 'READY'"),
            ("UPDATE /oic/sec/cred number=5", "subject= is missing"),
            ("UPDATE /oic/sec/cred number=5 number=6", "number= stands twice"),
            (
                "UPDATE /oic/sec/pstat state=RFPRO colour=red",
                "colour= is no part of such a body; it takes state=, row-owner=",
            ),
            ("UPDATE /oic/sec/acl2 permision=R", "permision= is no part of such a body; did you mean permission?"),
            ("GET /tare", "unknown word 'GET', which of CoAP is RETRIEVE here"),
            ("UPDATE /oic/sec/acl2 number=1 subject=me permission=R resources=*", "subject=me: a subject is"),
            (
                "UPDATE /oic/sec/acl2 number=1 subject=role:7 permission=RX resources=*",
                "'X' is none of the letters CRUDN",
            ),
            ("UPDATE /tare number=5", "has no body with fields"),
        ] {
            let said = one(text).unwrap_err();
            assert!(said.contains(error), "{text}: {said}");
        }
    }
}
