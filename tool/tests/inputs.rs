//! Texts that are nearly right: whatever comes, the parsers answer and do not panic.

#![forbid(unsafe_code)]

use answers::names::Names;
use answers::steps::{self, Act};
use answers::stored::Stored;
use answers::times::{self, Day, Zone};
use answers::{csv, hex, list, office, parse};
use tillerclover::{Given, Terminal};
use tool::expect::Suite;

const OFFICE: &str = r#"{"aclist2":[{"aceid":1,"subject":{"authority":"2","role":"7"},"resources":[{"href":"/tare"},{"wc":"+"}],"permission":6,"first":"2026-07-01","last":1790812799},{"aceid":2,"subject":{"uuid":"22222222-2222-2222-2222-222222222222"},"resources":[],"permission":31},{"aceid":3,"subject":{"conntype":"auth-crypt"},"resources":[{"href":"/weight"}],"permission":2}]}"#;
const RECORD: &str = "UPDATE /oic/sec/acl2 as 5 number=1 subject=role:7@2 permission=RU resources=/tare,+ first=2026-07-01 last=2026-09-30T23:59:59+02:00";
const LINES: &str = "# day\nat 2026-08-03T06:00 hand-in UPDATE /ticket as 7 # turn\ntake\n52400007\nhex:52 40 0007\n";
const SUITE: &str = "tables = \"a\"\nclock = 2026-08-03T06:00:00Z\n[[expect]]\nname = \"x\"\nrecord = \"UPDATE /tare as 7\"\nanswer = 0\npermission = \"RU\"\n";

const NAMES: &str =
    "# yard\n5 11111111-1111-1111-1111-111111111111 Yard Office\n7 Northfield Haulage # n\nrole 7@2 foreman\n";
const CSV: &str = "number,subject,name,permission,resources,first,last\n1,role:7@2,foreman,RU,\"/tare /zero\",2026-07-01,2026-09-30\n";

/// A generator without a pattern.
struct Random(u64);

impl Random {
    fn below(&mut self, end: usize) -> usize {
        self.0 = self.0.wrapping_mul(6_364_136_223_846_793_005).wrapping_add(1_442_695_040_888_963_407);
        (self.0 >> 33) as usize % end.max(1)
    }
}

/// The text with a few places changed, doubled, dropped or exchanged.
fn spoilt(text: &str, random: &mut Random) -> String {
    const ODD: [char; 14] = ['{', '}', '"', '\\', '\u{1b}', '\u{ffff}', 'é', '0', '-', ' ', '\n', '=', ':', '@'];
    let mut letters: Vec<char> = text.chars().collect();
    for _ in 0..=random.below(3) {
        let place = random.below(letters.len());
        match random.below(5) {
            0 => letters[place] = ODD[random.below(ODD.len())],
            1 => letters.insert(place, ODD[random.below(ODD.len())]),
            2 => drop(letters.remove(place)),
            3 => letters.truncate(place + 1),
            _ => {
                let end = (place + random.below(30)).min(letters.len());
                let part: Vec<char> = letters[place..end].to_vec();
                letters.splice(place..place, part);
            }
        }
        if letters.is_empty() {
            letters.push('x');
        }
    }
    letters.into_iter().collect()
}

#[test]
fn no_text_is_too_odd() {
    let mut random = Random(1);
    let mut taken = [0; 6];
    for _ in 0..6000 {
        taken[0] += usize::from(office::read(&spoilt(OFFICE, &mut random)).is_ok());
        taken[1] += usize::from(parse::one(&spoilt(RECORD, &mut random)).is_ok());
        taken[2] += usize::from(steps::of_lines(&spoilt(LINES, &mut random), 0, Act::Judge).is_ok());
        taken[3] += usize::from(spoilt(SUITE, &mut random).parse::<Suite>().is_ok());
        let _ = times::read(&spoilt("2026-09-30T23:59:59+02:00", &mut random), Day::Ends);
        let _ = spoilt("+02:00", &mut random).parse::<Zone>();
        let _ = hex::read(&spoilt("52 40 0007", &mut random));
        let _ = parse::access_row(&spoilt(&RECORD[26..], &mut random));
        let _ = times::duration(&spoilt("30d", &mut random));
        taken[4] += usize::from(Names::read(&spoilt(NAMES, &mut random)).is_ok());
        taken[5] += usize::from(csv::rows(&spoilt(CSV, &mut random)).is_ok());
    }
    assert!(taken.iter().all(|&count| count > 10 && count < 5000), "{taken:?} were taken");
}

/// Whatever bytes a file has, they are read or are none, and what is read is written back as it was.
#[test]
fn no_file_is_too_odd() {
    let mut random = Random(3);
    let mut read = 0;
    for _ in 0..400 {
        let form = answers::stored::Form::ALL[random.below(5)];
        let mut bytes = Stored::new(form, Terminal::new()).bytes();
        for _ in 0..random.below(4) {
            let (place, value) = (random.below(bytes.len()), random.below(256) as u8);
            bytes[place] = value;
        }
        match random.below(4) {
            0 => bytes.truncate(random.below(bytes.len())),
            1 => bytes.extend(vec![[0, 0xff, 7][random.below(3)]; random.below(9000)]),
            _ => {}
        }
        let _ = list::check(std::path::Path::new("a"), &bytes);
        let Ok(stored) = Stored::of(&bytes, Given::default()) else { continue };
        read += 1;
        assert!(stored.start() + 2172 <= bytes.len());
        assert!(stored.damage.is_some() || stored.bytes() == bytes, "{form:?}");
        let _ = answers::fresh::look(std::path::Path::new("a"), &bytes, &Given::default());
    }
    assert!(read > 200, "{read}");
}

/// A text that is taken although it was spoilt has the rows that the library writes back as that text.
#[test]
fn what_is_taken_is_what_was_written() {
    let mut random = Random(2);
    for _ in 0..6000 {
        let text = spoilt(OFFICE, &mut random);
        let Ok((rows, _)) = office::read(&text) else { continue };
        let again = office::with_seasons(&rows).expect("rows that the library writes");
        assert_eq!(office::read(&again).expect("its own text").0, rows, "{text}");
    }
}
