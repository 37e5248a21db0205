//! `record` and `decode`: records as words, as hexadecimal digits, as bytes, and as
//! lines that send them to a terminal.

use std::io::{self, Write};

use answers::report::{Report, Status};
use answers::{hex, parse, words};
use clap::ArgMatches;
use serde_json::json;
use tillerclover::{Header, Verb};

use crate::arguments::{records, text, texts};
use crate::error::{plain, Error};
use crate::records::word;

/// The records of the arguments.
fn given(arguments: &ArgMatches) -> Result<Vec<Vec<u8>>, Error> {
    let words = records(arguments).iter().map(word).collect::<Result<Vec<String>, Error>>()?;
    parse::records(&words).map_err(Error::new)
}

/// `record --bytes RECORD..`: writes what no report can hold.
pub fn bytes(arguments: &ArgMatches) -> Result<Status, Error> {
    let bytes = given(arguments)?.concat();
    match io::stdout().write_all(&bytes).and_then(|()| io::stdout().flush()) {
        Err(error) if error.kind() != io::ErrorKind::BrokenPipe => {
            Err(Error::new(format!("the output cannot be written: {}", plain(&error))))
        }
        _ => Ok(Status::Yes),
    }
}

/// `record RECORD..`.
pub fn record(arguments: &ArgMatches) -> Result<Report, Error> {
    let records = given(arguments)?;
    let lines: Result<Vec<String>, Error> = match text(arguments, "coap") {
        Some(host) => records.iter().map(|record| coap(record, host)).collect(),
        None => Ok(records.iter().map(|record| hex::write(record)).collect()),
    };
    Ok(report(&records, lines?))
}

/// `decode HEX..`.
pub fn decode(arguments: &ArgMatches) -> Result<Report, Error> {
    let one = |digits: &String| hex::read(digits).map_err(|error| Error::new(format!("record '{digits}': {error}")));
    let records = texts(arguments, "HEX").iter().map(one).collect::<Result<Vec<_>, Error>>()?;
    let lines = records.iter().map(|record| words::named_record(record)).collect();
    Ok(report(&records, lines))
}

fn report(records: &[Vec<u8>], lines: Vec<String>) -> Report {
    let one = |record: &Vec<u8>| json!({ "record": hex::write(record), "words": words::record(record) });
    let json = json!({ "records": records.iter().map(one).collect::<Vec<_>>() });
    Report::new(lines.iter().map(|line| format!("{line}\n")).collect(), json, Status::Yes)
}

/// A line of libcoap's client that sends the record, as the example terminal takes it.
fn coap(record: &[u8], host: &str) -> Result<String, Error> {
    let unsent = || Error::new(format!("'{}' has no request of CoAP", words::record(record)));
    let header = Header::read(record).ok_or_else(unsent)?;
    let method = match header.verb {
        Verb::RETRIEVE => "get",
        Verb::OBSERVE => "get -s 60",
        Verb::UPDATE => "post",
        Verb::CREATE => "put",
        Verb::DELETE => "delete",
        _ => return Err(unsent()),
    };
    let path = header.resource.name().ok_or_else(unsent)?;
    let body: String = record[Header::LENGTH..].iter().map(|byte| format!("%{byte:02x}")).collect();
    let body = if body.is_empty() { body } else { format!(" -e {body}") };
    let to = match header.sender {
        0 => format!("coap://{}{path}", quoted(host)),
        number => format!("-u {number} -k \"$KEY\" coaps://{}{path}", quoted(host)),
    };
    Ok(format!("coap-client-openssl -m {method}{body} {to}"))
}

/// A word that a shell takes as it is.
fn quoted(word: &str) -> String {
    let plain = |letter: char| letter.is_ascii_alphanumeric() || ".:-_[]".contains(letter);
    match word.chars().all(plain) {
        true => word.into(),
        false => format!("'{}'", word.replace('\'', "'\\''")),
    }
}
