//! Tests that the random cases are spread as they should be.

use super::*;
use crate::answers::OF_RECORDS;
use crate::histogram::{Clocks, Histogram, Places, Replies, Resets, Roles, Sets, Subjects, Turns};
use crate::run;

#[test]
fn every_answer_occurs_often() {
    let mut systematic = Histogram::new();
    walk_groups(1, u64::MAX, &mut |_, case| {
        let outcome = judge(case);
        systematic.add(case, &outcome);
        outcome.after()
    });
    let mut random = Histogram::new();
    walk_sessions(1, 80_000, &mut |_, case| {
        let outcome = judge(case);
        random.add(case, &outcome);
        outcome.after()
    });
    for answer in OF_RECORDS.map(usize::from) {
        assert!(systematic.answers[answer] >= 50, "systematic {answer}: {systematic}");
        assert!(random.answers[answer] >= 150, "random {answer}: {random}");
    }
    for histogram in [systematic, random] {
        let Replies { exact, to_spare, one_too_short, no_buffer, otherwise_too_short } = histogram.replies;
        for count in [exact, to_spare, one_too_short, no_buffer, otherwise_too_short] {
            assert!(count >= 100, "{histogram}");
        }
        let Subjects { several, one, none } = histogram.subjects;
        assert!(several >= 100 && one >= 100 && none >= 200, "{histogram}");
        let Places { from_first, between, last, none } = histogram.places;
        assert!(from_first >= 100 && between >= 100 && last >= 100 && none >= 20, "{histogram}");
        let Resets { no_lists, good, bad } = histogram.resets;
        assert!(no_lists >= 20 && good >= 50 && bad >= 50, "{histogram}");
        let Clocks { first, last, just_before, just_after, within, outside } = histogram.clocks;
        for count in [first, last, just_before, just_after, within, outside] {
            assert!(count >= 100, "{histogram}");
        }
        let Sets { sizes, unasked } = histogram.sets;
        assert!(unasked >= 100, "{histogram}");
        // No partner reaches all seven: one of them has no secure endpoint.
        assert!(sizes[..7].iter().all(|&count| count >= 5) && sizes[7] == 0, "{histogram}");
        let Turns { kept, permitted, refused, out_of_order, wrapped, stale, .. } = histogram.turns;
        for count in [kept, permitted, refused, out_of_order, wrapped, stale] {
            assert!(count >= 100, "{histogram}");
        }
        let Turns { dropped, cleared, reset, not_sound, full, .. } = histogram.turns;
        for count in [dropped, cleared, reset, not_sound, full] {
            assert!(count >= 40, "{histogram}");
        }
        let Roles { added, prolonged, removed, past, opening, replied } = histogram.roles;
        for count in [added, prolonged, removed, past, opening].into_iter().chain(replied) {
            assert!(count >= 50, "{histogram}");
        }
    }
}

#[test]
fn the_same_seed_gives_the_same() {
    let digest = |seed| {
        let mut sum = 0u64;
        walk_sessions(seed, 5_000, &mut |_, case| {
            let outcome = judge(case);
            let clock = case.clock.to_be_bytes();
            let queue = outcome.queue.trimmed();
            for &byte in
                clock.iter().chain(&case.record).chain(&outcome.response.reply).chain(&outcome.tables).chain(queue)
            {
                sum = sum.rotate_left(5).wrapping_add(byte.into());
            }
            outcome.after()
        });
        sum
    };
    assert_eq!(digest(7), digest(7));
    assert_ne!(digest(7), digest(8));
}

#[test]
fn the_rules_keep_tables_sound() {
    walk_sessions(2, 15_000, &mut |_, case| {
        let outcome = judge(case);
        let sound = |tables: &TableBytes, queue: &QueueBytes| {
            Tables::read(tables).is_ok_and(|tables| Queue::read(queue, &tables).is_ok())
        };
        assert_eq!(sound(&case.tables, &case.queue), sound(&outcome.tables, &outcome.queue));
        outcome.after()
    });
}

#[test]
fn exactly_so_many_records() {
    for records in [0, 1, 40, 5_000] {
        let mut seen = 0;
        walk(3, records, |_, case| {
            seen += 1;
            (case.tables, case.queue.clone())
        });
        assert_eq!(seen, records);
    }
}

#[test]
fn runs_of_every_kind() {
    let texts: Vec<String> = (0..200).map(|run| run::text(&run_input(1, run))).collect();
    assert!(texts.iter().filter(|text| text.ends_with("cut\n")).count() > 60);
    assert!(texts.iter().filter(|text| !text.ends_with("cut\n")).count() > 80);
    assert!((0..200).filter(|&run| run_input(1, run).len() > RUN_MAX).count() > 10);
    for state in 1..=4 {
        let line = format!(" {state}\n");
        assert!(texts.iter().filter(|text| text.contains(&line)).count() > 20, "state {state}");
    }
}
