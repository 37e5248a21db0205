//! When a record gets which answer, over the whole of the clock: the library is asked
//! at each second at which something begins or ends.

use serde_json::{json, Value};
use tillerclover::{Answer, Asserted, Body, Header, Period, Tables, Terminal};

use crate::report::{Report, Status};
use crate::{colour, hex, times, words};

/// Seconds one after the other in which a record gets the same answer.
#[derive(Clone, Copy, Debug, PartialEq, Eq)]
pub struct Span {
    /// The first of them, and the last.
    pub period: Period,
    /// What the library says in all of them.
    pub answer: Answer,
}

/// The seconds from which on something is otherwise: a season begins, or is over, or an asserted role is.
pub fn edges(tables: &Tables) -> Vec<u32> {
    let begins = tables.aces().into_iter().map(|row| Some(row.period.first));
    let ends = tables.aces().into_iter().map(|row| row.period.last.checked_add(1));
    let roles = tables.creds().into_iter().flat_map(|row| row.asserted).filter(|role| *role != Asserted::default());
    let roles = roles.map(|role| role.last.checked_add(1));
    let mut edges: Vec<u32> = begins.chain(ends).chain(roles).flatten().filter(|&edge| edge > 0).collect();
    edges.sort_unstable();
    edges.dedup();
    edges
}

/// What a record gets from the clock's first second to its last. Nothing changes.
pub fn spans(terminal: &Terminal, record: &[u8]) -> Vec<Span> {
    let mut starts = edges(&terminal.tables);
    starts.extend(own_edge(record));
    starts.push(0);
    starts.sort_unstable();
    starts.dedup();
    let mut spans: Vec<Span> = Vec::new();
    for (place, &first) in starts.iter().enumerate() {
        let last = starts.get(place + 1).map_or(u32::MAX, |next| next - 1);
        let answer = terminal.ask(first, record).answer;
        match spans.last_mut() {
            Some(span) if span.answer == answer => span.period.last = last,
            _ => spans.push(Span { period: Period { first, last }, answer }),
        }
    }
    spans
}

/// A role that the record asserts is over after its last second.
fn own_edge(record: &[u8]) -> Option<u32> {
    let header = Header::read(record)?;
    match Body::read(header.verb, header.resource, &record[Header::LENGTH..]) {
        Body::Role(role) => role.last.checked_add(1),
        _ => None,
    }
}

/// When a record is permitted, and when it is refused and why.
pub fn report(terminal: &Terminal, clock: u32, record: &[u8]) -> Report {
    let spans = spans(terminal, record);
    let now = spans.iter().position(|span| span.period.last >= clock).unwrap_or_default();
    let next = spans[now + 1..].iter().find(|span| span.answer.is_permitted() != spans[now].answer.is_permitted());
    let lines: String = spans.iter().map(|span| line(*span, clock)).collect();
    let text = format!("{}\n{lines}", words::record(record));
    let json = json!({
        "record": hex::write(record),
        "words": words::record(record),
        "clock": clock,
        "edges": edges(&terminal.tables),
        "spans": spans.iter().map(|span| span_json(*span)).collect::<Vec<_>>(),
        "now": span_json(spans[now]),
        "next": next.map(|span| span_json(*span)),
    });
    Report::new(text, json, Status::of(spans[now].answer.is_permitted()))
}

fn line(span: Span, clock: u32) -> String {
    let Span { period, answer } = span;
    let said =
        if answer.is_permitted() { "permitted".into() } else { format!("refused, {} {answer}", answer.number()) };
    let now = if (period.first..=period.last).contains(&clock) { ", now" } else { "" };
    format!("  {}: {}{now}\n", times::period(period), colour::verdict(answer.is_permitted(), &said))
}

fn span_json(span: Span) -> Value {
    let Span { period, answer } = span;
    json!({
        "first": period.first,
        "last": period.last,
        "words": times::period(period),
        "answer": words::answer_json(answer),
    })
}

#[cfg(test)]
mod tests {
    use super::*;
    use crate::parse;
    use tillerclover::{State, Uuid};

    fn terminal(lines: &[&str]) -> Terminal {
        let mut terminal = Terminal::new();
        for line in lines {
            let answer = terminal.judge(0, &parse::one(line).unwrap()).answer;
            assert!(answer.is_permitted(), "{line}: {answer}");
        }
        terminal.tables.state = State::RFNOP.number();
        terminal.tables.owned = 1;
        terminal.tables.devowner = Uuid([9; 16]).0;
        terminal
    }

    #[test]
    fn a_season_a_gap_and_a_season() {
        let terminal = terminal(&[
            "UPDATE /oic/sec/cred number=7 subject=22222222-2222-2222-2222-222222222222",
            "UPDATE /oic/sec/acl2 number=1 subject=22222222-2222-2222-2222-222222222222 permission=U resources=/tare first=100 last=199",
            "UPDATE /oic/sec/acl2 number=2 subject=22222222-2222-2222-2222-222222222222 permission=U resources=/tare first=200 last=299",
            "UPDATE /oic/sec/acl2 number=3 subject=22222222-2222-2222-2222-222222222222 permission=U resources=/tare first=400",
        ]);
        let record = parse::one("UPDATE /tare as 7").unwrap();
        let periods: Vec<(u32, u32, bool)> = spans(&terminal, &record)
            .iter()
            .map(|span| (span.period.first, span.period.last, span.answer.is_permitted()))
            .collect();
        assert_eq!(periods, [(0, 99, false), (100, 299, true), (300, 399, false), (400, u32::MAX, true)]);
        let said = report(&terminal, 300, &record);
        assert_eq!((said.status, said.json["next"]["first"].as_u64()), (Status::No, Some(400)));
        assert_eq!(report(&terminal, u32::MAX, &record).json["next"], Value::Null);
    }

    #[test]
    fn an_asserted_role_ends() {
        let mut terminal = terminal(&[
            "UPDATE /oic/sec/cred number=7 subject=22222222-2222-2222-2222-222222222222",
            "UPDATE /oic/sec/acl2 number=1 subject=role:3 permission=U resources=/tare",
        ]);
        assert!(terminal
            .judge(50, &parse::one("UPDATE /oic/sec/roles as 7 role=3 last=70").unwrap())
            .answer
            .is_permitted());
        let spans = spans(&terminal, &parse::one("UPDATE /tare as 7").unwrap());
        assert_eq!((spans.len(), spans[0].period.last, spans[0].answer.is_permitted()), (2, 70, true));
        assert_eq!(edges(&terminal.tables), [71]);
    }
}
