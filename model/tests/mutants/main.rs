//! Mutants are programs that are wrong on purpose. The cases that the library is
//! compared with find each of them.

#![forbid(unsafe_code)]

mod decisions;
mod lists;
mod older;
mod queue;
mod texts;

use model::case::{Call, Case};
use model::files::{self, Converted};
use model::generate::{walk_groups, walk_sessions};
use model::provisioning::test;
use model::queue::QueueBytes;
use model::tables::{Access, Role, Subject};
use model::texts::{Listed, Picks};

/// A mutant that differs so often is found, and is asked no more.
const ENOUGH: usize = 25;

/// How often each mutant of a table differed.
struct Found<M: 'static>(Vec<(&'static M, usize)>);

impl<M> Found<M> {
    fn new(table: impl IntoIterator<Item = &'static M>) -> Found<M> {
        Found(table.into_iter().map(|mutant| (mutant, 0)).collect())
    }

    /// Asks those that are not found yet.
    fn ask(&mut self, differs: impl Fn(&M) -> bool) {
        for (mutant, count) in self.0.iter_mut().filter(|(_, count)| *count < ENOUGH) {
            *count += usize::from(differs(mutant));
        }
    }

    fn expect_all(&self, name: impl Fn(&M) -> &'static str) {
        for (mutant, count) in &self.0 {
            assert!(*count >= ENOUGH, "a mutant that {}: {count}", name(mutant));
        }
    }
}

/// The roles that access rows are for.
fn wanted_roles(rows: &mut [Access]) -> impl Iterator<Item = &mut Role> {
    rows.iter_mut().filter_map(|row| match &mut row.subject {
        Subject::Role(role) => Some(role),
        _ => None,
    })
}

#[test]
fn mutants_of_decisions_and_texts_are_found() {
    let mut decisions = Found::new(decisions::all());
    let mut texts = Found::new(texts::TABLE);
    let mut picks = Picks::new(1);
    // Both kinds in one walk, since the cases take more time than the mutants.
    let mut visit = |_, case: &Case| {
        let right = case.expected();
        // These mutants know of no queue.
        if case.call == Call::Judge && case.queue == QueueBytes::empty() {
            decisions.ask(|mutant| !right.same(&mutant.run(case, right.clone())));
        }
        if let Some(case) = picks.pick(&right.tables, &right.queue) {
            let right = Listed::expected(&case);
            texts.ask(|mutant| mutant.run(&case, right.clone()) != right);
        }
        right.after()
    };
    walk_sessions(1, 60_000, &mut visit);
    walk_groups(1, u64::MAX, &mut visit);
    decisions.expect_all(decisions::Mutant::name);
    texts.expect_all(texts::Mutant::name);
}

#[test]
fn mutants_of_the_queue_are_found() {
    let mut found = Found::new(queue::TABLE);
    let mut visit = |_, case: &Case| {
        let right = case.expected();
        // Without a queue, only hand-ins and takes can differ.
        if case.call != Call::Judge || case.queue != QueueBytes::empty() {
            found.ask(|mutant| !right.same(&mutant.run(case, right.clone())));
        }
        right.after()
    };
    walk_sessions(1, 40_000, &mut visit);
    walk_groups(1, u64::MAX, &mut visit);
    found.expect_all(queue::Mutant::name);
}

#[test]
fn mutants_of_the_test_of_lists_are_found() {
    let mut found = Found::new(lists::TABLE);
    for list in model::lists::cases(1) {
        let right = test(&list);
        found.ask(|mutant| mutant.run(&list, right) != right);
    }
    found.expect_all(lists::Mutant::name);
}

#[test]
fn mutants_of_the_conversion_are_found() {
    let mut found = Found::new(older::TABLE);
    for file in files::cases(1) {
        let right = Converted::expected(&file);
        found.ask(|mutant| mutant.run(&file, right.clone()) != right);
    }
    found.expect_all(older::Mutant::name);
}
