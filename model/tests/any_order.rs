//! Access rows in any order (U14): two tables that hold the same access rows,
//! each in its own order, give every run of records, hand-ins and takes the same,
//! except for that order.

#![forbid(unsafe_code)]

use model::case::{Call, Case};
use model::directory::find;
use model::generate::{any_sound, capacity, clock, defaults, full_sound, queue, record, Style};
use model::random::Random;
use model::record::{Header, Verb, HEADER_SIZE};
use model::rules::{fits, judge, Outcome, Sender};
use model::tables::{Access, Connection, Row, TableBytes, Tables};

const SEED: u64 = 14;
const RUNS: usize = 1500;
const RUN_MAX: usize = 60;
const ACL2: u8 = 3;
const OWNER: usize = 16;

/// Puts the rows in another order: shuffled, or sorted as an office might.
fn reorder(random: &mut Random, rows: &mut [Access]) {
    match random.below(6) {
        0 => rows.sort_by_key(|row| row.number),
        // By site: the resources that a row names.
        1 => rows.sort_by_key(|row| row.set),
        2 => rows.reverse(),
        _ => (1..rows.len()).for_each(|last| rows.swap(last, random.below(last + 1))),
    }
}

/// The tables with their access rows by number, which is one order of all.
fn in_one_order(stored: &TableBytes) -> Tables {
    let mut tables = Tables::read(stored).expect("sound tables stay sound");
    tables.accesses.sort_by_key(|row| row.number);
    tables
}

fn header(record: &[u8]) -> Option<Header> {
    (record.len() >= HEADER_SIZE).then(|| Header::read(record))
}

fn is_listing(record: &[u8]) -> bool {
    header(record).is_some_and(|header| header.verb == Verb::Retrieve as u8 && header.resource == ACL2)
}

/// Equal in length, with the same row owner, and the same rows in some order.
fn same_listed(one: &[u8], other: &[u8]) -> bool {
    let sorted = |reply: &[u8]| {
        let mut rows: Vec<Vec<u8>> = reply[OWNER..].chunks(Access::BODY_SIZE).map(<[u8]>::to_vec).collect();
        rows.sort();
        rows
    };
    one.len() == other.len() && (one.is_empty() || one[..OWNER] == other[..OWNER] && sorted(one) == sorted(other))
}

/// The response to the record, except for the order.
fn same_but_order(record: &[u8], one: &Outcome, other: &Outcome) -> bool {
    let same_reply = if is_listing(record) {
        same_listed(&one.response.reply, &other.response.reply)
    } else {
        one.response.reply == other.response.reply
    };
    let same_places =
        one.response.store == other.response.store || header(record).is_some_and(|header| header.resource == ACL2);
    let said = |outcome: &Outcome| {
        let handed_out = (outcome.taken.clone(), outcome.queue.clone());
        (
            outcome.response.answer,
            outcome.response.permission,
            outcome.response.payload.clone(),
            outcome.response.links,
            outcome.response.link_count(),
            handed_out,
        )
    };
    said(one) == said(other) && same_reply && same_places
}

/// What the first row that fits would grant, if it alone decided.
fn first_row_gives(case: &Case) -> Option<u8> {
    let tables = Tables::read(&case.tables).ok()?;
    let header = header(&case.record)?;
    let resource = find(header.resource)?;
    let sender = match header.connection {
        Connection::AnonClear => Sender::Unauthenticated,
        Connection::AuthCrypt => Sender::Partner(tables.credential(header.credential)?),
    };
    let held = tables.accesses.iter().filter(|row| row.period.holds_at(case.clock));
    held.into_iter().find(|row| fits(row, sender, resource, case.clock)).map(|row| row.permission)
}

/// How often the two sides differed where they may, and where a program that
/// stops at the first row that fits would.
#[derive(Default)]
struct Seen {
    replies: usize,
    places: usize,
    ends: usize,
    first_rows: usize,
    taken: usize,
}

fn run(random: &mut Random, seen: &mut Seen) {
    let start = if random.chance(70) { any_sound(random) } else { full_sound(random) };
    let mut sorted = start.clone();
    reorder(random, &mut sorted.accesses);
    let defaults = defaults(random);
    let style = random.weighted(&[(6, Style::Purposeful), (5, Style::Mixed), (1, Style::Damaged)]);
    let (mut left, mut right) = (start.bytes(), sorted.bytes());
    let mut queue_bytes = queue(random, &start).bytes();
    for _ in 0..random.between(1, RUN_MAX) {
        let clock = clock(random, &left);
        let call = random.weighted(&[(3, Call::Judge), (1, Call::HandIn), (1, Call::Take)]);
        let sent = if call == Call::Take { Vec::new() } else { record(random, style, &left, clock) };
        let mut one = Case { call, queue: queue_bytes, clock, defaults: defaults.clone(), ..Case::new(&left, &sent) };
        one.capacity = capacity(random, &one);
        let other = Case { tables: right, ..one.clone() };
        let (here, there) = (judge(&one), judge(&other));
        let judged = if call == Call::Take { &here.taken } else { &one.record };
        assert!(same_but_order(judged, &here, &there), "{}\n{}", one.line(), other.line());
        assert_eq!(in_one_order(&here.tables), in_one_order(&there.tables), "{}\n{}", one.line(), other.line());
        seen.replies += usize::from(here.response.reply != there.response.reply);
        seen.places += usize::from(here.response.store != there.response.store);
        seen.first_rows += usize::from(first_row_gives(&one) != first_row_gives(&other));
        seen.taken += usize::from(!here.taken.is_empty());
        (left, right) = (here.tables, there.tables);
        queue_bytes = here.queue;
    }
    seen.ends += usize::from(left != right);
}

#[test]
fn the_order_of_access_rows_changes_no_decision() {
    let mut random = Random::new(SEED);
    let mut seen = Seen::default();
    (0..RUNS).for_each(|_| run(&mut random, &mut seen));
    // The claim is not empty: each of these occurred, and not rarely.
    let Seen { replies, places, ends, first_rows, taken } = seen;
    println!("replies {replies} places {places} ends {ends} first rows {first_rows} taken {taken}");
    assert!(replies > 100 && places > 100 && ends > 300 && first_rows > 300 && taken > 1000);
}

/// The test finds two tables with other rows.
#[test]
fn other_rows_are_not_the_same_rows() {
    let mut random = Random::new(SEED);
    let tables = full_sound(&mut random);
    let listing = |tables: &Tables| {
        let rows = tables.accesses.iter().flat_map(Row::bytes).collect::<Vec<u8>>();
        [vec![0; OWNER], rows].concat()
    };
    let mut fewer = tables.clone();
    fewer.accesses.pop();
    let mut twice = fewer.clone();
    twice.accesses.push(fewer.accesses[0].clone());
    assert!(same_listed(&listing(&tables), &listing(&tables)));
    assert!(!same_listed(&listing(&tables), &listing(&fewer)));
    assert!(!same_listed(&listing(&tables), &listing(&twice)));
}
