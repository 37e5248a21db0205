//! Mutants of the yard: who reaches it, and which links it answers.

use model::answers::*;
use model::case::{Case, Seen};
use model::directory::{find, set_bit, CALIB, DISPLAY, LINKS, WEIGHT, YARD};
use model::record::{Header, Verb};
use model::rules::{effective_permission, Sender};
use model::tables::{Period, Tables};

use super::Mutant::{self, *};
use super::{polls, refused, to_yard, with_links};

/// The links with a secure endpoint: all but the display.
const SECURE_LINKS: u64 = 0xFC << 48;

const RETRIEVE: u8 = Verb::Retrieve as u8;
const UPDATE: u8 = Verb::Update as u8;
const OBSERVE: u8 = Verb::Observe as u8;

pub const TABLE: &[Mutant] = &[
    Any("does not know the yard", |case, right| {
        if to_yard(case, &right).is_some() {
            refused(UNKNOWN_RESOURCE, case)
        } else {
            right
        }
    }),
    Any("serves the yard in clear", |case, right| match to_yard(case, &right) {
        Some(_) if right.answer == NO_ENDPOINT => refused(PERMITTED, case),
        _ => right,
    }),
    Reaches("reaches the yard by -", |row| {
        if row.wildcards.minus {
            row.set |= set_bit(YARD);
        }
    }),
    Reaches("does not reach the yard by +", |row| row.wildcards.plus = false),
    Reaches("does not reach the yard by *", |row| row.wildcards.star = false),
    Reaches("does not reach the yard by its number", |row| row.set &= !set_bit(YARD)),
    Reaches("serves the yard to who may use a link", |row| {
        if LINKS.map(set_bit).any(|link| row.set & link != 0) {
            row.set |= set_bit(YARD);
        }
    }),
    Any("answers no links", |_, right| Seen { links: 0, link_count: 0, ..right }),
    Any("answers links without their count", |_, right| Seen { link_count: 0, ..right }),
    Any("answers a count without the links", |_, right| Seen { links: 0, ..right }),
    Links("answers all links", |_| 0xFE << 48),
    Links("answers all links with a secure endpoint", |_| SECURE_LINKS),
    Links("answers all links or none", |links| if links == SECURE_LINKS { links } else { 0 }),
    Links("answers any link or none", |links| if links != 0 { SECURE_LINKS } else { 0 }),
    Links("answers the yard as well", |links| links | set_bit(YARD)),
    Links("leaves the first link out", |links| links & !set_bit(WEIGHT)),
    Links("leaves out links not to be discovered", |links| links & !set_bit(CALIB)),
    Links("has resource 0 at the low end", u64::reverse_bits),
    Links("counts the links from the top bit", |links| links << 8),
    Links("counts resources from 1", |links| links >> 1),
    Any("counts a link too many", |case, mut right| {
        right.link_count += usize::from(polls(case, &right).is_some());
        right
    }),
    Any("counts a link too few", |_, right| Seen { link_count: right.link_count.saturating_sub(1), ..right }),
    Any("counts the links there are", |case, right| match polls(case, &right) {
        Some(_) => Seen { link_count: LINKS.count(), ..right },
        None => right,
    }),
    Any("answers an OBSERVE", |case, right| match to_yard(case, &right) {
        Some(header) if right.answer == PERMITTED && header.verb == OBSERVE => {
            let read = Header { verb: RETRIEVE, ..header };
            with_links(right, Case { record: read.with_body(&[]), ..case.clone() }.expected().links)
        }
        _ => right,
    }),
    Any("answers every permitted record to the yard", |case, right| match to_yard(case, &right) {
        Some(header) if right.answer == PERMITTED && !matches!(header.verb, RETRIEVE | UPDATE) => {
            with_links(right, SECURE_LINKS)
        }
        _ => right,
    }),
    LinksOf("answers the links to read when asked to write", |_, header| header.verb = RETRIEVE),
    Any("asks no endpoint of a link", |case, right| {
        let Some(header) = polls(case, &right) else {
            return right;
        };
        let tables = Tables::read(&case.tables).expect("sound");
        let sender = Sender::Partner(tables.credential(header.credential).expect("permitted"));
        let display = find(DISPLAY).expect("known");
        let needed = Verb::from_number(header.verb).expect("a verb").needs();
        let permission = effective_permission(&tables, sender, display, case.clock);
        let link = if permission & needed != 0 { display.bit() } else { 0 };
        let links = right.links | link;
        with_links(right, links)
    }),
    LinksOf("answers links of a period that does not hold", |tables, _| {
        tables.accesses.iter_mut().for_each(|row| row.period = Period::ALWAYS)
    }),
    LinksOf("answers links named by a row only", |tables, _| {
        tables.accesses.iter_mut().for_each(|row| row.wildcards = Default::default())
    }),
    LinksOf("has asserted roles count for no link", |tables, _| {
        tables.credentials.iter_mut().for_each(|row| row.asserted.clear())
    }),
];
