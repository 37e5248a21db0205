//! What is reported is compared with what the library decides, over the model's
//! random records, tables and lists.

#![forbid(unsafe_code)]

use answers::judge::Judged;
use answers::report::Status;
use answers::show::show;
use answers::soundness::findings;
use answers::steps::{Act, Step};
use answers::stored::{Form, Stored};
use answers::why::explain;
use answers::{list, parse, words};
use model::case::Case;
use model::directory::find;
use model::generate::{walk_groups, walk_sessions};
use model::library;
use model::rules::{fits, resource_fits, Sender};
use model::tables::Access;
use tillerclover::{Ace, Answer, Body, Cred, Given, Header, Tables, Terminal};

/// The terminal of a case.
fn terminal(case: &Case) -> Terminal {
    Terminal {
        tables: Tables::from_bytes(&case.tables),
        waiting: library::queue(&case.queue),
        defaults: Given { creds: case.defaults.default_creds.clone(), aces: case.defaults.default_aces.clone() },
    }
}

/// Random sessions, and one in that many of the cases by enumeration.
fn visit(records: u64, one_in: u64, mut visit: impl FnMut(&Case)) {
    walk_sessions(1, records, &mut |_, case| {
        visit(case);
        library::judge(case).after()
    });
    let mut count = 0u64;
    walk_groups(1, u64::MAX, &mut |_, case| {
        count += 1;
        if count % one_in == 0 {
            visit(case);
        }
        (case.tables, case.queue.clone())
    });
}

/// Which parts of each access row fit by the model: subject, resource, season.
fn parts(case: &Case) -> Vec<[bool; 3]> {
    let tables = model::tables::Tables::read(&case.tables).expect("sound tables");
    let header = Header::read(&case.record).expect("a header");
    let resource = find(header.resource.number()).expect("a known resource");
    let credential = tables.credentials.iter().find(|row| row.number == header.sender);
    let sender = credential.map_or(Sender::Unauthenticated, Sender::Partner);
    let part = |row: &Access| {
        let here = Access { set: resource.bit(), ..row.clone() };
        [fits(&here, sender, resource, case.clock), resource_fits(row, resource), row.period.holds_at(case.clock)]
    };
    tables.accesses.iter().map(part).collect()
}

/// The explanation says what the library decides: needed and there agree with the answer, the shares with the
/// permission, and the parts of a row with the row and with the model.
#[test]
fn the_explanation_never_disagrees_with_the_decision() {
    let mut permitted = 0;
    let mut refused = 0;
    visit(4000, 101, |case| {
        let terminal = terminal(case);
        let decided = terminal.ask(case.clock, &case.record);
        let said = explain(&terminal, case.clock, &case.record);
        assert_eq!(said.response, decided);
        let asked = Answer::CHECKS.iter().position(|&check| check == decided.answer);
        let eight = Answer::CHECKS.iter().position(|&check| check == Answer::NOT_PERMITTED);
        let Some(rights) = said.rights else {
            assert!(asked < eight && asked.is_some(), "{}", case.line());
            return;
        };
        assert_eq!(rights.needed.bits().count(), 1, "{}", case.line());
        match decided.answer {
            Answer::PERMITTED => {
                permitted += 1;
                assert_eq!(rights.there(), decided.permission, "{}", case.line());
            }
            Answer::NOT_PERMITTED => {
                refused += 1;
                assert!(!rights.there().contains(rights.needed), "{}", case.line());
            }
            _ => assert!(rights.there().contains(rights.needed), "{}", case.line()),
        }
        for (fit, parts) in rights.rows.iter().zip(parts(case)) {
            assert_eq!([fit.subject, fit.resource, fit.season], parts, "{}", case.line());
            assert_eq!(fit.fits, parts == [true; 3], "{}", case.line());
            assert_eq!(fit.share, if fit.fits { fit.row.permission } else { Default::default() }, "{}", case.line());
        }
    });
    assert!(permitted > 500 && refused > 500, "{permitted} permitted, {refused} not permitted");
}

/// Something is found exactly where the library finds the tables not sound.
#[test]
fn what_is_not_sound_is_found() {
    let mut unsound = 0;
    visit(4000, 23, |case| {
        let terminal = terminal(case);
        let found = findings(&terminal);
        assert_eq!(found.is_empty(), terminal.is_sound(), "{}", case.line());
        assert!(found.iter().all(|finding| !finding.what.contains("though each part")), "{}", case.line());
        unsound += usize::from(!found.is_empty());
    });
    assert!(unsound > 300, "{unsound}");
}

/// The words of a record, parsed again, are the record, or its body in the longer of two forms.
#[test]
fn records_come_back_from_their_words() {
    let mut named = 0;
    visit(4000, 23, |case| {
        let said = words::record(&case.record);
        if case.record.is_empty() {
            return;
        }
        let parsed = parse::one(&said).unwrap_or_else(|error| panic!("{said}: {error}"));
        named += usize::from(!said.starts_with("hex:"));
        if parsed != case.record {
            let [long, short] = [&parsed, &case.record].map(|record| {
                let header = Header::read(record).expect("a header");
                (header, Body::read(header.verb, header.resource, &record[Header::LENGTH..]))
            });
            assert_eq!(long, short, "{said}");
            assert!([Cred::SHORT, Ace::SHORT].contains(&(case.record.len() - Header::LENGTH)), "{said}");
        }
    });
    assert!(named > 3000, "{named}");
}

/// Every list that is not accepted or not converted has a reason in words.
#[test]
fn lists_have_their_reasons() {
    let path = std::path::Path::new("a list");
    for list in model::lists::cases(1).step_by(17) {
        let report = list::check(path, &list);
        let tested = Terminal::test_list(&list);
        assert_eq!(report.text.contains(": accepted"), tested.answer.is_permitted());
        assert_eq!(list::load(&list).is_ok(), tested.answer.is_permitted());
        if tested.row > 0 {
            assert!(report.text.contains(&format!("row {}, at byte {}: ", tested.row, (tested.row - 1) * Ace::LENGTH)));
        }
        assert!(!report.text.contains("row not storable"), "{}", report.text);
    }
}

/// Whatever tables and record there are, they can be shown, judged and explained, and all say the same.
#[test]
fn everything_can_be_shown() {
    let path = std::path::Path::new("tables");
    visit(1500, 211, |case| {
        let mut terminal = terminal(case);
        let sound = terminal.is_sound();
        let stored = Stored::new(Form::Memory, terminal.clone());
        let shown = show(path, &stored, case.clock);
        assert_eq!(shown.json["sound"], sound);
        assert_eq!(shown.text.contains("tables: sound"), sound, "{}", shown.text);
        let said = explain(&terminal, case.clock, &case.record).report(0);
        let step = Step { clock: case.clock, act: Act::Judge(case.record.clone()) };
        let judged = Judged::new(&mut terminal, step);
        assert_eq!(judged.json()["answer"], said.json["answer"]);
        assert_eq!(judged.text().starts_with("permitted"), said.text.contains(": permitted\n"), "{}", said.text);
        assert_eq!(said.status, Status::of(judged.permitted()));
    });
}
