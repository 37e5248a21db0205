//! What `who`, `rights`, `why --with` and `diff` say is compared with what the library
//! decides, over the model's random terminals.

#![forbid(unsafe_code)]

use answers::diff::changes;
use answers::marks::{self, Mark};
use answers::matrix::{matrix, Cell};
use answers::plan::{shifts, Plan};
use answers::senders::{roles, Sender};
use answers::who::Question;
use answers::yards::{others, Other, Yard};
use answers::{office, service, why};
use model::case::Case;
use model::generate::walk_sessions;
use model::library;
use tillerclover::{record, Ace, Answer, Asserted, Body, Given, Header, Permission, Resource, State, Subject, Tables};
use tillerclover::{Terminal, Verb, ANYONE};

/// Sound terminals on the way of random sessions, one in that many.
fn visit(records: u64, one_in: u64, mut visit: impl FnMut(&Terminal, &Case)) {
    let mut count = 0;
    walk_sessions(7, records, &mut |_, case| {
        let terminal = Terminal {
            tables: Tables::from_bytes(&case.tables),
            waiting: library::queue(&case.queue),
            defaults: Given { creds: case.defaults.default_creds.clone(), aces: case.defaults.default_aces.clone() },
        };
        count += 1;
        if count % one_in == 0 && terminal.is_sound() {
            visit(&terminal, case);
        }
        library::judge(case).after()
    });
}

/// What the library says to a record without a body.
fn ask(terminal: &Terminal, clock: u32, header: Header) -> tillerclover::Response {
    terminal.ask(clock, &header.to_bytes())
}

/// Whether the checks up to 8 let it pass.
fn passes(answer: Answer) -> bool {
    let place = |one: Answer| Answer::CHECKS.iter().position(|&check| check == one);
    place(answer).is_none() || place(answer) > place(Answer::NOT_PERMITTED)
}

fn needed(verb: Verb) -> Permission {
    match verb {
        Verb::CREATE => Permission::CREATE,
        Verb::UPDATE => Permission::UPDATE,
        Verb::DELETE => Permission::DELETE,
        _ => Permission::RETRIEVE,
    }
}

/// Each letter of each cell is an answer of the library, and so is each letter of a season.
#[test]
fn cells_are_what_the_library_permits() {
    let (mut given, mut seasons) = (0, 0);
    visit(6000, 37, |terminal, case| {
        for line in matrix(terminal, case.clock) {
            let (own, number) = line.sender.at(terminal);
            for (resource, cell) in Resource::ALL.iter().zip(&line.cells) {
                for &verb in Verb::ALL {
                    let said = ask(&own, case.clock, line.sender.header(number, verb, *resource));
                    assert_eq!(said.answer == Answer::NO_ENDPOINT, !cell.served, "{}", case.line());
                    let may = cell.served && cell.now.contains(needed(verb));
                    assert_eq!(passes(said.answer), may, "{verb} {resource} {}", case.line());
                    if said.answer.is_permitted() {
                        given += 1;
                        assert_eq!(said.permission, cell.now, "{}", case.line());
                    }
                }
                seasons += season(&own, line.sender, case.clock, *resource, cell);
            }
        }
    });
    assert!(given > 500 && seasons > 50, "{given} given, {seasons} seasons");
}

/// A letter of a season is given by the library in the last or first second of a row that is over or to come.
fn season(terminal: &Terminal, sender: Sender, clock: u32, resource: Resource, cell: &Cell) -> usize {
    let number = sender.at(terminal).1;
    let at =
        |second: u32| answers::rights::held(&terminal.tables, second, sender.header(number, Verb::RETRIEVE, resource));
    let rows = terminal.tables.aces();
    let over = rows.iter().filter(|row| row.period.last < clock).map(|row| row.period.last);
    let to_come = rows.iter().filter(|row| row.period.first > clock).map(|row| row.period.first);
    let found = |seconds: Vec<u32>| seconds.into_iter().fold(Permission::NONE, |union, second| union | at(second));
    for (letters, seconds) in [(cell.over, over.collect()), (cell.to_come, to_come.collect::<Vec<u32>>())] {
        if !letters.is_empty() {
            assert!(found(seconds).contains(letters) && (cell.now.number() & letters.number()) == 0);
        }
    }
    (cell.over | cell.to_come).bits().count()
}

/// `who` names exactly those whose record passes check 8, by rows without which it would not.
#[test]
fn who_may_and_who_could() {
    let (mut holders, mut candidates) = (0, 0);
    visit(8000, 43, |terminal, case| {
        let Some(header) = Header::read(&case.record).filter(|header| header.resource.name().is_some()) else { return };
        let verb = if header.verb.name().is_some() { header.verb } else { Verb::UPDATE };
        let question = Question { verb, resource: header.resource, clock: case.clock };
        let answers = question.ask(terminal);
        let said = |terminal: &Terminal, sender: Sender| {
            ask(terminal, case.clock, sender.header(sender.at(terminal).1, verb, header.resource)).answer
        };
        for sender in Sender::all(&terminal.tables) {
            let holder = answers.may.iter().find(|holder| holder.sender == sender);
            assert_eq!(holder.is_some(), passes(said(terminal, sender)), "{}", case.line());
            assert_eq!(holder.is_none(), answers.may_not.contains(&sender));
            let Some(holder) = holder else { continue };
            holders += 1;
            let kept = |row: &Ace| holder.sources.is_empty() && !holder.rows.contains(&row.number);
            let mut without = terminal.clone();
            without.tables.set_aces(&terminal.tables.aces().into_iter().filter(kept).collect::<Vec<_>>());
            assert_eq!(passes(said(&without, sender)), !holder.sources.is_empty(), "{}", case.line());
        }
        candidates += by_roles(terminal, case, question, &answers.could);
    });
    assert!(holders > 200 && candidates > 50, "{holders} may, {candidates} could");
}

/// Those who could are exactly those who may after the library has let them assert the role.
fn by_roles(terminal: &Terminal, case: &Case, question: Question, could: &[answers::who::Candidate]) -> usize {
    let mut found = 0;
    for row in terminal.tables.creds() {
        let sender = Sender::Credential(row);
        let header = sender.header(row.number, question.verb, question.resource);
        if passes(ask(terminal, case.clock, header).answer) {
            continue;
        }
        for role in roles(&terminal.tables) {
            let mut after = terminal.clone();
            after.tables.state = State::RFNOP.number();
            let body = Body::Role(Asserted { role, last: u32::MAX }).to_bytes();
            let asserted = after.judge(case.clock, &record(Verb::UPDATE, Resource::ROLES, row.number, &body)).answer;
            let named = could.iter().find(|one| one.sender == sender && one.role == role);
            if asserted.is_permitted() {
                let may = passes(ask(&after, case.clock, header).answer);
                assert_eq!(named.is_some(), may, "role {role} {}", case.line());
                found += usize::from(may);
            } else {
                assert!(asserted == Answer::ROLES_FULL && named.is_none_or(|one| one.full), "{asserted}");
            }
        }
    }
    found
}

/// What a plan says of the record is what the library answers on the planned tables, and every right that it does not
/// name stays.
#[test]
fn plans_say_what_the_library_would() {
    let mut changed = 0;
    visit(6000, 89, |terminal, case| {
        let Some(row) = terminal.tables.aces().first().copied() else { return };
        let plan = Plan { without: vec![row.number], with: vec![case.record.clone()] };
        let asked = record(Verb::RETRIEVE, Resource::WEIGHT, ANYONE, &[]);
        let mut after = terminal.clone();
        after.tables.set_aces(&terminal.tables.aces()[1..]);
        let permitted = after.judge(case.clock, &case.record).answer.is_permitted();
        let planned = plan.carry_out(terminal, case.clock);
        assert_eq!(planned.is_ok(), permitted, "{}", case.line());
        let explained = why::explain(terminal, case.clock, &asked).report(0);
        let report = answers::plan::report(explained, terminal, case.clock, &asked, &plan);
        let Ok(planned) = planned else { return assert!(report.json["planned"]["impossible"].is_string()) };
        assert_eq!(planned, after);
        let answer = after.ask(case.clock, &asked).answer;
        assert_eq!(report.json["planned"]["answer"]["number"], answer.number());
        let named = shifts(terminal, &after, case.clock);
        changed += named.len();
        let lines = [terminal, &after].map(|terminal| matrix(terminal, case.clock));
        for line in &lines[0] {
            let Some(other) = lines[1].iter().find(|other| other.sender == line.sender) else { continue };
            for (place, resource) in Resource::ALL.iter().enumerate() {
                let told = named.iter().any(|one| one.sender == line.sender && one.resource == *resource);
                assert_eq!(line.cells[place] != other.cells[place], told, "{}", case.line());
            }
        }
    });
    assert!(changed > 50, "{changed}");
}

/// Nothing differs exactly where the bytes are the same.
#[test]
fn differences_are_all_told() {
    let (mut same, mut other) = (0, 0);
    visit(6000, 2, |terminal, case| {
        let mut after = terminal.clone();
        let _ = after.judge(case.clock, &case.record);
        let found = changes(terminal, &after);
        assert_eq!(found.is_empty(), after == *terminal, "{}", case.line());
        assert!(found.iter().all(|change| !change.text().starts_with("byte")), "{}", case.line());
        assert_eq!(changes(&after, terminal).len(), found.len());
        *(if found.is_empty() { &mut same } else { &mut other }) += 1;
    });
    assert!(same > 300 && other > 300, "{same} the same, {other} not");
}

/// A row that is marked as nobody's changes no cell at any edge of its season, and one for a role is marked as open.
#[test]
fn marked_rows_give_nothing() {
    let (mut dead, mut inside, mut nothing) = (0, 0, 0);
    visit(6000, 211, |terminal, case| {
        let rows = terminal.tables.aces();
        let asserting = Sender::asserting(&terminal.tables);
        let senders: Vec<Sender> = Sender::all(&terminal.tables).into_iter().chain(asserting).collect();
        for (row, marks) in rows.iter().zip(marks::all(terminal, case.clock)) {
            assert_eq!(marks.contains(&Mark::Over), row.period.last < case.clock);
            let role = matches!(row.subject, Subject::Role(_)) && terminal.tables.ncreds > 0;
            assert_eq!(marks.contains(&Mark::OpenRole), role);
            let mut without = terminal.clone();
            without.tables.set_aces(&rows.iter().copied().filter(|one| one.number != row.number).collect::<Vec<_>>());
            if marks.contains(&Mark::Nothing) {
                nothing += 1;
                let [with, without] = [terminal, &without].map(|other| passed(&senders, other, row.period.first));
                assert_eq!(with, without, "{}", case.line());
            }
            let contained = marks.iter().any(|mark| matches!(mark, Mark::Contained(_)));
            if !contained && !marks.contains(&Mark::NoSender) && !marks.contains(&Mark::NoResource) {
                continue;
            }
            dead += 1;
            inside += usize::from(contained);
            let shifted = shifts(terminal, &without, row.period.first);
            assert!(shifted.is_empty(), "row {}: {shifted:?} {}", row.number, case.line());
        }
    });
    assert!(dead > 50 && inside > 20 && nothing > 5, "{dead} dead, {inside} contained, {nothing} give nothing");
}

/// Which records with only a header pass checks 8 and 9, of these senders.
fn passed(senders: &[Sender], terminal: &Terminal, clock: u32) -> Vec<bool> {
    let mut passed = Vec::new();
    for sender in senders {
        let (own, number) = sender.at(terminal);
        for (resource, verb) in Resource::ALL.iter().flat_map(|one| Verb::ALL.iter().map(move |verb| (*one, *verb))) {
            let answer = ask(&own, clock, sender.header(number, verb, resource)).answer;
            passed.push(passes(answer) && answer != Answer::NOT_OFFERED);
        }
    }
    passed
}

/// Where all are locked out, no record changes an owner, the state, or a row except for its asserted roles.
#[test]
fn nobody_changes_what_is_locked() {
    let (mut locked, mut open) = (0, 0);
    visit(12000, 1, |terminal, case| {
        let before = rows_of(terminal);
        let mut after = terminal.clone();
        let _ = after.judge(case.clock, &case.record);
        match service::locked_out(terminal) {
            true => {
                locked += 1;
                assert_eq!(rows_of(&after), before, "{}", case.line());
            }
            false => open += usize::from(rows_of(&after) != before),
        }
    });
    assert!(locked > 100 && open > 100, "{locked} locked, {open} changes");
}

/// The tables without asserted roles.
fn rows_of(terminal: &Terminal) -> Tables {
    let mut tables = terminal.tables;
    let rows = tables.creds().into_iter().map(|row| tillerclover::Cred { asserted: Default::default(), ..row });
    tables.set_creds(&rows.collect::<Vec<_>>());
    tables
}

/// The office's text of a list that can be stored, with its seasons, is the list again.
#[test]
fn office_texts_come_back() {
    let mut read = 0;
    for list in model::lists::cases(1).step_by(17) {
        if Terminal::test_list(&list).answer == Answer::TEST_NOT_STORABLE || list.len() % Ace::LENGTH != 0 {
            continue;
        }
        let rows: Vec<Ace> = list.chunks_exact(Ace::LENGTH).filter_map(Ace::from_body).collect();
        if rows.len() > Ace::CAPACITY {
            continue;
        }
        let Ok(text) = office::with_seasons(&rows) else {
            assert_eq!(Terminal::test_list(&list).answer, Answer::TEST_EXCESSIVE);
            continue;
        };
        match office::read(&text) {
            Ok((again, seasons)) => {
                assert_eq!(again, rows);
                assert_eq!(seasons, rows.iter().filter(|row| row.period != tillerclover::Period::ALWAYS).count());
                read += 1;
            }
            // A bad row may follow a row that gives too much.
            Err(_) => assert_eq!(Terminal::test_list(&list).answer, Answer::TEST_EXCESSIVE),
        }
    }
    assert!(read > 20, "{read}");
}

/// The sender that is named alone is not isolated, and whoever has no reason is.
#[test]
fn yards_are_what_the_library_says() {
    let (mut isolated, mut named) = (0, 0);
    visit(6000, 11, |terminal, _| {
        let numbers: Vec<u16> = terminal.tables.creds().iter().map(|row| row.number).collect();
        let yards = [Yard { name: "a".into(), senders: numbers.iter().copied().step_by(2).collect() }];
        let finding = yards[0].ask(terminal);
        assert_eq!(finding.isolation, terminal.isolated(&yards[0].senders));
        assert_eq!(finding.reason(&terminal.tables).is_none(), finding.isolation.is_isolated());
        isolated += u64::from(finding.isolation.is_isolated());
        if let Some(sender) = finding.sender {
            named += 1;
            assert!(!terminal.isolated(&[sender]).is_isolated());
        }
        let others = others(terminal, &yards);
        assert_eq!(others.len(), 1 + numbers.len() - yards[0].senders.len());
        for Other { finding, .. } in others {
            assert_eq!(finding.why(&terminal.tables).is_none(), finding.isolation.is_isolated());
        }
    });
    assert!(isolated > 20 && named > 20, "{isolated} {named}");
}
