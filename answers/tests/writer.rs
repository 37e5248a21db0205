//! Writes a journal as docs/JOURNAL.md has it, of a terminal that the library judges: what
//! the tests read, and what the example `journal` prints.

use answers::hex;
use sha2::{Digest, Sha256};
use tillerclover::interface::REPLY_MAX;
use tillerclover::yards::identity;
use tillerclover::{record, Ace, Cred, Permission, Resource, Set, State, Subject, Terminal, Uuid, Verb};

/// 2026-11-18T06:00:00Z.
const BEGINS: i64 = 1_794_981_600_000;

/// A terminal and its journal.
pub struct Writer {
    /// The lines so far.
    pub text: String,
    /// The terminal.
    pub terminal: Terminal,
    /// How many lines were written.
    pub lines: u64,
    chain: String,
    time: i64,
    number: u64,
    file: u64,
    chance: u64,
}

fn short(bytes: &[u8]) -> String {
    let end = bytes.iter().rposition(|byte| *byte != 0).map_or(1, |place| place + 1);
    hex::write(&bytes[..end])
}

impl Writer {
    /// A new terminal, started, with the chances of this seed.
    pub fn new(seed: u64) -> Writer {
        let mut new = Writer {
            text: String::new(),
            terminal: Terminal::new(),
            lines: 0,
            chain: "0".repeat(64),
            time: BEGINS,
            number: 0,
            file: 0,
            chance: seed | 1,
        };
        new.begin();
        new.start("new");
        new
    }

    /// A number below this.
    pub fn below(&mut self, most: u64) -> u64 {
        self.chance ^= self.chance << 13;
        self.chance ^= self.chance >> 7;
        self.chance ^= self.chance << 17;
        (self.chance >> 11) % most
    }

    fn clock(&self) -> u32 {
        (self.time / 1000) as u32
    }

    /// Writes an entry, a moment later.
    pub fn entry(&mut self, clock: Option<u32>, fields: &str) {
        self.number += 1;
        let moment = chrono::NaiveDateTime::from_timestamp_millis(self.time).unwrap();
        let clock = clock.map_or("-".into(), |clock| clock.to_string());
        let text = format!("{} {} {clock} {fields}", self.number, moment.format("%Y-%m-%dT%H:%M:%S%.3fZ"));
        self.chain = hex::write(&Sha256::digest(format!("{} {text}", self.chain)));
        self.text += &format!("{text} {}\n", self.chain);
        self.time += 1 + (self.number % 97) as i64;
        self.lines += 1;
    }

    fn begin(&mut self) {
        self.file += 1;
        self.entry(None, &format!("begin journal-1 {} {}", self.file, self.chain.clone()));
        self.library();
    }

    fn library(&mut self) {
        self.entry(None, &format!("library {} {REPLY_MAX} - -", identity()));
    }

    fn memory(&self) -> String {
        format!("{} {}", short(&self.terminal.tables.to_bytes()), short(&self.terminal.waiting.bytes))
    }

    fn start(&mut self, reason: &str) {
        self.entry(None, &format!("started {reason} {}", self.memory()));
    }

    /// The program ends in order and is started again, and what waits is lost.
    pub fn restart(&mut self) {
        self.entry(None, "stopped");
        self.terminal.waiting = Default::default();
        self.library();
        self.start("same");
    }

    /// The file is full; what it held is given back, and the next begins.
    pub fn next_file(&mut self) -> String {
        self.entry(None, &format!("end {}", self.file));
        let full = std::mem::take(&mut self.text);
        self.begin();
        self.entry(None, &format!("tables {}", self.memory()));
        full
    }

    /// Hands records in, and takes until nothing waits.
    pub fn round(&mut self, records: &[Vec<u8>]) {
        let before = self.terminal.tables;
        for bytes in records {
            let answer = self.terminal.hand_in(bytes).number();
            self.entry(None, &format!("handed-in {} {} {answer}", sender(bytes), hex::write(bytes)));
        }
        while self.terminal.waiting.count() > 0 {
            let clock = self.clock();
            let (bytes, response) = self.terminal.take(clock);
            let outcome = format!("{} {}", response.answer.number(), response.permission.number());
            self.entry(Some(clock), &format!("taken {} {} {outcome}", sender(&bytes), hex::write(&bytes)));
        }
        if self.terminal.tables != before {
            self.stores();
        }
    }

    fn stores(&mut self) {
        let sum = hex::write(&Sha256::digest(self.terminal.tables.to_bytes()));
        self.entry(None, &format!("stores {sum}"));
    }

    /// The clear button.
    pub fn clear(&mut self) {
        self.terminal.clear();
        self.entry(None, "cleared");
        self.stores();
    }

    /// An owner with number 1, and hauliers 2 to 13 with a season each.
    pub fn set_up(&mut self) {
        for number in 1..=13 {
            let row = Cred { number, subject: uuid(number), ..Cred::default() };
            self.round(&[record(Verb::UPDATE, Resource::CRED, 0, &row.body())]);
        }
        for number in 2..=13 {
            let row = self.season(number);
            self.round(&[record(Verb::UPDATE, Resource::ACL2, 0, &row)]);
        }
        let owner = tillerclover::doxm_body(uuid(1));
        self.round(&[record(Verb::UPDATE, Resource::DOXM, 0, &owner)]);
        self.state(State::RFPRO);
        self.state(State::RFNOP);
    }

    fn state(&mut self, state: State) {
        self.round(&[record(Verb::UPDATE, Resource::PSTAT, 1, &tillerclover::pstat_body(state))]);
    }

    /// A row of a haulier, for a season that may be over.
    fn season(&mut self, number: u16) -> [u8; 36] {
        let last = self.clock() - 500_000 + self.below(3_000_000) as u32;
        let row = Ace {
            number,
            subject: Subject::Uuid(uuid(number)),
            permission: Permission::RETRIEVE | Permission::UPDATE,
            resources: Set::of(&[Resource::TARE, Resource::TICKET]),
            ..Ace::default()
        };
        Ace { period: tillerclover::Period { first: 0, last }, ..row }.body()
    }

    /// One thing after the other, as a yard does them, until there are so many lines.
    pub fn day(&mut self, lines: u64) {
        while self.lines < lines {
            match self.below(1000) {
                0 => {
                    let row = self.below(12) as u16 + 2;
                    let row = self.season(row);
                    self.state(State::RFPRO);
                    self.round(&[record(Verb::UPDATE, Resource::ACL2, 1, &row)]);
                    self.state(State::RFNOP);
                }
                1 => self.restart(),
                2 => self.entry(None, "turned-away 7 52400007 session-over"),
                3 => {
                    self.clear();
                    self.set_up();
                }
                _ => {
                    let many = self.below(5) + 1;
                    let all: Vec<Vec<u8>> = (0..many).map(|_| self.weighing()).collect();
                    self.round(&all);
                }
            }
        }
    }

    fn weighing(&mut self) -> Vec<u8> {
        let sender = self.below(15) as u16;
        let resource = [Resource::TARE, Resource::WEIGHT, Resource::TICKET, Resource::CRED][self.below(4) as usize];
        match self.below(3) {
            0 => record(Verb::RETRIEVE, resource, sender, &[]),
            _ => record(Verb::UPDATE, resource, sender, &b"lorry of 40 tonnes"[..self.below(18) as usize]),
        }
    }
}

fn sender(record: &[u8]) -> u16 {
    u16::from_be_bytes([record[2], record[3]])
}

fn uuid(number: u16) -> Uuid {
    Uuid([number as u8; 16])
}
