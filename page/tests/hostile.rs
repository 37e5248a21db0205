//! Questions and files of any content: each gets an answer, in words where it is an
//! error, and none stops the page.

use serde_json::{json, Value};

const ASKS: [&str; 25] = [
    "version",
    "time",
    "period",
    "new",
    "show",
    "rights",
    "who",
    "why",
    "when",
    "cell",
    "judge",
    "isolated",
    "yards",
    "sheet",
    "diff",
    "list check",
    "list text",
    "list make",
    "list convert",
    "list load",
    "journal check",
    "journal show",
    "journal why",
    "journal tables",
    "x",
];
const KEYS: [&str; 27] = [
    "clock",
    "now",
    "zone",
    "name",
    "record",
    "lines",
    "senders",
    "yards",
    "verb",
    "resource",
    "sender",
    "of",
    "with",
    "without",
    "other",
    "list",
    "list_name",
    "replace",
    "seasons",
    "absent",
    "first",
    "last",
    "by",
    "against",
    "line",
    "many",
    "changes",
];
const WORDS: [&str; 40] = [
    "UPDATE",
    "RETRIEVE",
    "DELETE",
    "/tare",
    "/oic/sec/acl2",
    "/oic/sec/cred",
    "/oic/sec/roles",
    "/oic/sec/pstat",
    "as",
    "7",
    "text:",
    "hex:",
    "hex:0",
    "number=0",
    "subject=",
    "subject=role:7@2",
    "role=7@2",
    "permission=CRUDN",
    "resources=*",
    "first=9999-99-99",
    "last=2106-02-07T06:28:16",
    "state=RFNOP",
    "é\u{0}\u{202e}",
    "{\"aclist2\":[{}]}",
    "[[[[[[",
    "=",
    "a=7,8",
    "clear",
    "\u{feff}",
    "at",
    "at 5 take",
    "hand-in",
    "#",
    "-1",
    "65536",
    "4294967296",
    "1e999",
    "Europe/Berlin",
    "+25:00",
    "all",
];

struct Chance(u64);

impl Chance {
    fn below(&mut self, many: usize) -> usize {
        self.0 ^= self.0 << 13;
        self.0 ^= self.0 >> 7;
        self.0 ^= self.0 << 17;
        (self.0 >> 33) as usize % many
    }

    fn text(&mut self) -> String {
        let words: Vec<&str> = (0..self.below(7)).map(|_| WORDS[self.below(WORDS.len())]).collect();
        words.join(if self.below(5) == 0 { "" } else { " " })
    }

    fn value(&mut self) -> Value {
        match self.below(9) {
            0 => json!(self.below(70_000)),
            1 => json!(u32::MAX as u64 + self.below(2) as u64),
            2 => json!(-1),
            3 => json!(5.5),
            4 => Value::Null,
            5 => json!([self.text(), self.below(40), "a=5", "UPDATE /tare as 7"]),
            6 => {
                json!({ "kind": (["clear", "credential", "asserting"])[self.below(3)], "number": self.below(9), "role": 7, "authority": self.below(3) })
            }
            7 => json!("00".repeat(self.below(3) * 36)),
            _ => json!(self.text()),
        }
    }

    fn question(&mut self) -> Value {
        let mut question = json!({ "ask": ASKS[self.below(ASKS.len())], "clock": self.below(2_000_000_000), "verb": "UPDATE", "resource": "/tare" });
        for _ in 0..self.below(5) {
            question[KEYS[self.below(KEYS.len())]] = self.value();
        }
        question
    }

    fn file(&mut self) -> Vec<u8> {
        let mut file = tillerclover_page::answer(&json!({ "ask": "new" }), &[]).1;
        if self.below(3) > 0 {
            let lines = "UPDATE /oic/sec/cred number=7 subject=22222222-2222-2222-2222-222222222222\n\
                         UPDATE /oic/sec/acl2 number=1 subject=role:7@2 permission=RU resources=/tare first=5 last=900000000\n\
                         hand-in RETRIEVE /weight as 7\nUPDATE /oic/sec/doxm owner=22222222-2222-2222-2222-222222222222";
            file = tillerclover_page::answer(&json!({ "ask": "judge", "clock": 0, "lines": lines }), &file).1;
        }
        match self.below(7) {
            6 => file = include_bytes!("../../examples/tool/weston.journal").to_vec(),
            0 => file.truncate(self.below(9000)),
            1 => file = file[8..8 + 2172].to_vec(),
            2 => file = file[8..8 + 8676].to_vec(),
            3 => file = self.text().into_bytes(),
            4 => file = (0..self.below(1300)).map(|_| self.below(256) as u8).collect(),
            _ => {}
        }
        for _ in 0..self.below(4) {
            if !file.is_empty() {
                let place = self.below(file.len());
                file[place] ^= 1 << self.below(8);
            }
        }
        file
    }
}

#[test]
fn every_question_is_answered() {
    let mut chance = Chance(0x9E37_79B9_7F4A_7C15);
    let (mut errors, mut reports) = (0, 0);
    for _ in 0..1500 {
        let (question, file) = (chance.question(), chance.file());
        let (answer, _) = tillerclover_page::answer(&question, &file);
        match answer.get("error") {
            Some(error) => {
                assert!(!error["text"].as_str().unwrap_or_default().is_empty(), "{question}: {answer}");
                errors += 1;
            }
            None => reports += 1,
        }
    }
    assert!(errors > 150 && reports > 150, "{errors} errors, {reports} reports");
}

#[test]
fn no_question_at_all() {
    for question in [json!(null), json!([]), json!(5), json!({}), json!({ "ask": {} })] {
        assert!(tillerclover_page::answer(&question, &[]).0["error"]["text"]
            .as_str()
            .unwrap()
            .contains("unknown question"));
    }
}
