//! A journal that is honest is judged again without a difference, and one that was changed
//! anywhere is not; no bytes make the reader stop otherwise than by a report.

mod writer;

use std::path::Path;

use answers::journal::{pieces, At, Check, Filter, Listed, Why};
use answers::report::{Report, Status};
use answers::stored::{Form, Stored};
use tillerclover::{record, Given, Resource, Verb};
use writer::Writer;

fn checked(files: &[&[u8]]) -> Report {
    let mut check = Check::default();
    for (place, file) in files.iter().enumerate() {
        check.begin_file(Path::new(&format!("file {place}")));
        pieces(*file, |piece| {
            check.piece(&piece);
            true
        })
        .unwrap();
    }
    check.report()
}

fn differences(report: &Report) -> Vec<(u64, String)> {
    let one = |one: &serde_json::Value| (one["line"].as_u64().unwrap(), one["what"].as_str().unwrap().to_string());
    report.json["differences"].as_array().unwrap().iter().map(one).collect()
}

fn day(seed: u64, lines: u64) -> Writer {
    let mut writer = Writer::new(seed);
    writer.set_up();
    writer.day(lines);
    writer
}

#[test]
fn an_honest_journal_gives_the_same() {
    for seed in 1..20 {
        let mut writer = day(seed, 600);
        writer.clear();
        let report = checked(&[writer.text.as_bytes()]);
        assert_eq!((report.status, differences(&report)), (Status::Yes, Vec::new()), "seed {seed}: {}", report.text);
        assert!(report.json["judged"].as_u64().unwrap() > 300, "{}", report.text);
    }
}

#[test]
fn files_of_one_journal() {
    let mut writer = day(3, 300);
    let first = writer.next_file();
    writer.day(600);
    let second = writer.next_file();
    writer.day(900);
    let [first, second, third] = [&first, &second, &writer.text].map(|text| text.as_bytes());
    assert_eq!(differences(&checked(&[first, second, third])), []);
    assert_eq!(differences(&checked(&[second, third])), []);
    assert!(differences(&checked(&[first, third])).contains(&(1, "it is file 3, after file 1".into())));
    // The second file begins with another line than the first one ends with.
    let cut = &first[..first[..first.len() - 1].iter().rposition(|byte| *byte == b'\n').unwrap() + 1];
    let found = differences(&checked(&[cut, second]));
    assert!(found.contains(&(1, "it does not go on with the last line of the file before".into())), "{found:?}");
}

/// Each line is changed in one place, left out, doubled and put after the next one: all of it is noticed.
#[test]
fn a_journal_that_was_changed() {
    let writer = day(5, 200);
    let lines: Vec<&str> = writer.text.split_inclusive('\n').collect();
    let mut chance = Writer::new(9);
    for place in 0..lines.len() - 1 {
        let mut bytes = lines[place].as_bytes().to_vec();
        let at = chance.below(bytes.len() as u64 - 1) as usize;
        bytes[at] = if bytes[at] == b'1' { b'2' } else { b'1' };
        let changed = String::from_utf8(bytes).unwrap();
        let (before, after) = (lines[..place].concat(), lines[place + 1..].concat());
        let left_out = format!("{before}{after}");
        let twice = format!("{before}{0}{0}{after}", lines[place]);
        let swapped = format!("{before}{}{}{}", lines[place + 1], lines[place], lines[place + 2..].concat());
        for (what, text) in [
            ("changed", format!("{before}{changed}{after}")),
            ("left out", left_out),
            ("twice", twice),
            ("swapped", swapped),
        ] {
            let report = checked(&[text.as_bytes()]);
            let found = differences(&report);
            assert!(report.status == Status::No && !found.is_empty(), "line {} {what}", place + 1);
            let first = found[0].0;
            assert!((place as u64 + 1..=place as u64 + 2).contains(&first), "line {} {what}: {found:?}", place + 1);
        }
    }
}

/// With chains that are computed anew the answers themselves do not fit.
#[test]
fn answers_that_are_not_the_librarys() {
    let mut writer = Writer::new(1);
    writer.set_up();
    let (line, tare) = (writer.lines + 2, record(Verb::UPDATE, Resource::ZERO, 7, &[]));
    assert!(writer.terminal.hand_in(&tare).is_permitted());
    writer.entry(None, "handed-in 7 53400007 0");
    writer.entry(Some(1_794_981_700), "taken 7 53400007 0 4");
    let found = differences(&checked(&[writer.text.as_bytes()]));
    assert_eq!(found.len(), 1, "{found:?}");
    assert_eq!(found[0].0, line);
    assert!(found[0].1.starts_with("the journal says 0 permitted, --U--, and the library answers"), "{found:?}");
    writer.entry(Some(1_794_981_700), "taken 7 53400007 8 0");
    let found = differences(&checked(&[writer.text.as_bytes()]));
    assert!(found[1].1.ends_with("and the library takes none"), "{found:?}");
    writer.entry(None, &format!("stores {}", "0".repeat(64)));
    writer.entry(None, "started other 01 00");
    let found = differences(&checked(&[writer.text.as_bytes()]));
    assert!(found.iter().any(|(_, what)| what.starts_with("other tables are stored")), "{found:?}");
    assert!(found.iter().any(|(_, what)| what == "no 'library' stands before the 'started'"), "{found:?}");
    assert!(found.iter().any(|(_, what)| what.starts_with("the terminal was started with other tables")), "{found:?}");
}

#[test]
fn the_tables_of_each_moment() {
    let mut writer = Writer::new(2);
    writer.set_up();
    let mut seen = Vec::new();
    for _ in 0..20 {
        let lines = writer.lines + 30;
        writer.day(lines);
        let last = writer.text.trim_end().rsplit('\n').next().unwrap().split(' ').nth(1).unwrap();
        seen.push((last.to_string(), writer.terminal.clone()));
    }
    for (time, terminal) in seen {
        let second = answers::times::read(&format!("{}Z", &time[..19]), answers::times::Day::Begins).unwrap();
        // Up to that line, the whole second is over with it.
        let text: String =
            writer.text.split_inclusive('\n').take_while(|line| line.split(' ').nth(1).unwrap() <= &time[..]).collect();
        let mut at = At::new(Path::new("j"), second);
        pieces(text.as_bytes(), |piece| {
            at.piece(&piece);
            true
        })
        .unwrap();
        let (report, bytes) = at.end(Form::Terminal).unwrap();
        assert_eq!(report.status, Status::Yes);
        assert_eq!(Stored::of(&bytes, Given::default()).unwrap().terminal, terminal, "{time}");
    }
}

/// What `why` says of a line is what the line says.
#[test]
fn why_agrees_with_the_line() {
    let writer = day(7, 400);
    let mut explained = 0;
    for (place, line) in writer.text.lines().enumerate() {
        let fields: Vec<&str> = line.split(' ').collect();
        let mut why = Why::new(Path::new("j"), place as u64 + 1);
        let mut answer = None;
        pieces(writer.text.as_bytes(), |piece| {
            answer = why.piece(&piece);
            answer.is_none()
        })
        .unwrap();
        let answer = answer.unwrap_or_else(|| why.end());
        match fields[3] {
            "taken" => {
                let json = answer.unwrap().json;
                assert_eq!(json["why"]["answer"]["number"].to_string(), fields[6], "{line}");
                assert_eq!(json["why"]["record"], fields[5]);
                explained += 1;
            }
            "handed-in" if fields[6] == "7" => {
                assert_eq!(answer.unwrap().json["why"]["answer"]["number"], 7, "{line}");
            }
            "handed-in" | "turned-away" => assert!(answer.is_ok(), "{line}"),
            _ => assert!(answer.is_err(), "{line}"),
        }
    }
    assert!(explained > 100);
}

#[test]
fn entries_by_sender_and_change() {
    let writer = day(11, 500);
    let listed = |filter: Filter| {
        let (mut listed, mut lines) = (Listed::new(filter), Vec::new());
        pieces(writer.text.as_bytes(), |piece| {
            lines.extend(listed.piece(&piece).map(|shown| shown.json()));
            true
        })
        .unwrap();
        lines
    };
    let all = listed(Filter::default());
    let seven = listed(Filter { sender: Some(7), ..Filter::default() });
    assert!(!seven.is_empty() && seven.iter().all(|one| one["sender"] == 7));
    assert_eq!(seven.len(), all.iter().filter(|one| one["sender"] == 7).count());
    let changed = listed(Filter { changes: true, ..Filter::default() });
    assert!(changed.len() > 20 && changed.iter().all(|one| !one["changes"].as_array().unwrap().is_empty()));
    let stored = writer.text.lines().filter(|line| line.split(' ').nth(3) == Some("stores")).count();
    assert_eq!(changed.len(), stored);
}

/// Bytes at random, and journals with bytes at random in them: a report, and no panic.
#[test]
fn hostile_bytes() {
    let writer = day(13, 120);
    let mut chance = Writer::new(17);
    for _ in 0..100 {
        let mut bytes = writer.text.clone().into_bytes();
        for _ in 0..=chance.below(4) {
            let at = chance.below(bytes.len() as u64) as usize;
            match chance.below(4) {
                0 => bytes[at] = chance.below(256) as u8,
                1 => bytes.truncate(at.max(1)),
                2 => bytes.insert(at, chance.below(256) as u8),
                _ => bytes.splice(at..at, vec![b'9'; chance.below(40_000) as usize]).for_each(drop),
            }
        }
        let report = checked(&[&bytes]);
        assert!(!report.text.is_empty());
        let (mut at, mut why, mut listed) =
            (At::new(Path::new("j"), u32::MAX), Why::new(Path::new("j"), 50), Listed::default());
        pieces(&bytes[..], |piece| {
            at.piece(&piece);
            listed.piece(&piece).map(|shown| shown.text());
            drop(why.piece(&piece));
            true
        })
        .unwrap();
        drop(at.end(Form::Tables));
    }
    for bytes in [&b""[..], b"\n", b"\n\n\n", b" ", &[0xff; 5000], b"1 2 3 4 5"] {
        assert_eq!(checked(&[bytes]).status, Status::No);
    }
}
