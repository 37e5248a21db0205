//! Why tables are not sound, row by row. Each part is put by itself into tables that
//! are otherwise sound, and the library says whether they still are.

use tillerclover::interface::RECORD_MAX;
use tillerclover::{Ace, Answer, Asserted, Cred, Resource, Subject, Tables, Terminal, Uuid, Waiting};

/// Something that is not sound.
#[derive(Clone, Debug, PartialEq, Eq)]
pub struct Finding {
    /// Where: a field, or a row and its number.
    pub place: String,
    /// Its first byte, in tables and memory one after the other.
    pub byte: usize,
    /// What is wrong there.
    pub what: String,
}

/// All that is not sound; empty exactly when the library finds the terminal sound.
pub fn findings(terminal: &Terminal) -> Vec<Finding> {
    if terminal.is_sound() {
        return Vec::new();
    }
    let mut findings = in_tables(&terminal.tables);
    if findings.is_empty() {
        findings = in_memory(terminal);
    }
    if findings.is_empty() {
        findings.push(Finding { place: "tables".into(), byte: 0, what: "not sound, though each part is alone".into() });
    }
    findings
}

/// Whether the library finds them sound.
fn sound(tables: &Tables, waiting: &Waiting) -> bool {
    Terminal { tables: *tables, waiting: waiting.clone(), defaults: Default::default() }.is_sound()
}

fn sound_tables(tables: &Tables) -> bool {
    sound(tables, &Waiting::FRESH)
}

fn fresh() -> Tables {
    Terminal::new().tables
}

/// Some UUID that is not nil.
const SOMEBODY: Uuid = Uuid([0x11; 16]);

fn head(tables: &Tables) -> Vec<Finding> {
    let finding = |place: &str, byte, what| vec![Finding { place: place.into(), byte, what }];
    let alone = Tables { ncreds: 0, naces: 0, creds: fresh().creds, aces: fresh().aces, ..*tables };
    if sound_tables(&alone) {
        return Vec::new();
    }
    let mut state = fresh();
    state.set_owner(SOMEBODY);
    state.state = tables.state;
    if !sound_tables(&state) {
        return finding("state", 0, format!("{}; a device state is 1 to 4", tables.state));
    }
    if !sound_tables(&Tables { owned: tables.owned, devowner: tables.devowner, ..fresh() }) {
        let owner =
            if tables.owner().is_nil() { "no device owner".into() } else { format!("device owner {}", tables.owner()) };
        return finding("owned", 1, format!("{} beside {owner}", tables.owned));
    }
    finding("state", 0, format!("{} in a terminal that nobody owns", tables.state()))
}

/// Places of which the first ones are in use, and how to ask about them.
struct Places<'a> {
    name: &'a str,
    held: usize,
    capacity: usize,
    /// Where the count is, where the first place does, and how long a place is.
    count_at: usize,
    start: usize,
    length: usize,
    /// What follows the name of a place.
    told: &'a dyn Fn(usize) -> String,
    /// Whether these places are sound where nothing else is.
    together: &'a dyn Fn(&[usize]) -> bool,
    /// Whether the place is sound if it is not in use.
    unused: &'a dyn Fn(usize) -> bool,
    /// What is wrong with a place that is not sound by itself.
    fault: &'a dyn Fn(usize) -> String,
    /// What two may not have in common.
    own: &'a str,
}

impl Places<'_> {
    fn findings(&self) -> Vec<Finding> {
        let claimed = (self.held > self.capacity).then(|| Finding {
            place: format!("{}s", self.name),
            byte: self.count_at,
            what: format!("{} are claimed, and there is room for {}", self.held, self.capacity),
        });
        claimed.into_iter().chain((0..self.capacity).filter_map(|place| self.finding(place))).collect()
    }

    fn finding(&self, place: usize) -> Option<Finding> {
        let what = if place >= self.held {
            (!(self.unused)(place)).then(|| "is not in use, and is not zero".to_string())
        } else if !(self.together)(&[place]) {
            Some((self.fault)(place))
        } else {
            let clash = |other: &usize| (self.together)(&[*other]) && !(self.together)(&[*other, place]);
            (0..place).find(clash).map(|other| format!("repeats the {} of {} {}", self.own, self.name, other + 1))
        };
        let told = if place < self.held { (self.told)(place) } else { String::new() };
        let named = format!("{} {}{told}", self.name, place + 1);
        what.map(|what| Finding { place: named, byte: self.start + place * self.length, what })
    }
}

/// What is wrong with the rows of one of the two tables: where their count is, where the first one is, and how long each is.
macro_rules! in_rows {
    ($tables:ident, $name:literal, $count:ident at $count_at:literal, $bytes:ident at $start:literal, $row:ident, $length:expr,
     $places:ident, $set:ident, $faults:ident) => {{
        let rows = $tables.$places();
        let pick = |places: &[usize]| places.iter().map(|&place| rows[place]).collect::<Vec<_>>();
        let part = |place: usize| place * $length..(place + 1) * $length;
        Places {
            name: $name,
            held: $tables.$count.into(),
            capacity: $row::CAPACITY,
            count_at: $count_at,
            start: $start,
            length: $length,
            told: &|place| format!(" (number {})", rows[place].number),
            together: &|places| sound_tables(&with(|fresh| fresh.$set(&pick(places)))),
            unused: &|place| {
                sound_tables(&with(|fresh| fresh.$bytes[part(place)].copy_from_slice(&$tables.$bytes[part(place)])))
            },
            fault: &|place| or_else($faults(&rows[place])),
            own: "number",
        }
        .findings()
    }};
}

fn in_tables(tables: &Tables) -> Vec<Finding> {
    let creds = in_rows!(
        tables, "credential row", ncreds at 2, creds at 84, Cred, Cred::ROW, cred_places, set_creds, cred_faults
    );
    let aces =
        in_rows!(tables, "access row", naces at 3, aces at 1020, Ace, Ace::LENGTH, ace_places, set_aces, ace_faults);
    [head(tables), creds, aces].concat()
}

/// Fresh tables with some bytes of others.
fn with(change: impl Fn(&mut Tables)) -> Tables {
    let mut tables = fresh();
    change(&mut tables);
    tables
}

fn or_else(faults: Vec<String>) -> String {
    if faults.is_empty() {
        "no record could store it".into()
    } else {
        faults.join("; ")
    }
}

/// What is wrong with a credential row by itself.
pub fn cred_faults(row: &Cred) -> Vec<String> {
    let good = Cred { number: 1, subject: SOMEBODY, ..Cred::default() };
    let alone = |row: Cred| !sound_tables(&with(|fresh| fresh.set_creds(&[row])));
    let parts = [
        (Cred { number: row.number, ..good }, "the number is 0".to_string()),
        (Cred { subject: row.subject, ..good }, "the subject is nil".into()),
        (Cred { role: row.role, ..good }, format!("authority {} beside no role", row.role.authority)),
        (Cred { kind: row.kind, ..good }, format!("the type is {}, of which more than one bit is set", row.kind)),
        (Cred { zeros: row.zeros, ..good }, "a zero bit is set".into()),
        (Cred { asserted: row.asserted, ..good }, asserted_fault(&row.asserted)),
    ];
    parts.into_iter().filter(|(part, _)| alone(*part)).map(|(_, what)| what).collect()
}

fn asserted_fault(places: &[Asserted; 2]) -> String {
    match places.map(|place| place.role.number) {
        [0, 0] => "bytes in a place for an asserted role, and no role".into(),
        [0, _] => "the second place for an asserted role is used before the first".into(),
        [_, 0] => "bytes in the second place for an asserted role, and no role".into(),
        _ => "the same role is asserted twice".into(),
    }
}

/// What is wrong with an access row by itself.
pub fn ace_faults(row: &Ace) -> Vec<String> {
    let good = Ace { number: 1, ..Ace::default() };
    let alone = |row: Ace| Terminal::test_list(&row.body()).answer == Answer::TEST_NOT_STORABLE;
    let unknown = unknown(row.resources.resources());
    let parts = [
        (Ace { number: row.number, ..good }, "the number is 0".to_string()),
        (Ace { subject: row.subject, ..good }, subject_fault(row.subject)),
        (Ace { zeros: row.zeros, ..good }, "a zero bit is set".into()),
        (Ace { resources: row.resources, ..good }, format!("its set names unknown resources: {unknown}")),
        (Ace { period: row.period, ..good }, "its first second is later than its last".into()),
    ];
    parts.into_iter().filter(|(part, _)| alone(*part)).map(|(_, what)| what).collect()
}

/// The numbers of resources without a name.
pub fn unknown(resources: impl Iterator<Item = Resource>) -> String {
    let numbers = resources.filter(|resource| resource.name().is_none()).map(|resource| resource.number().to_string());
    numbers.collect::<Vec<_>>().join(", ")
}

fn subject_fault(subject: Subject) -> String {
    match subject {
        Subject::Uuid(_) => "the subject is nil".into(),
        Subject::Role(_) => "the subject is role 0".into(),
        Subject::Connection(connection) => format!("the subject is connection {connection}"),
        Subject::Other { kind: 3, .. } => "the subject is of kind 3, which there is not".into(),
        Subject::Other { kind, .. } => {
            format!("bits are set before the subject's {}", if kind == 1 { "role" } else { "connection" })
        }
    }
}

/// What is wrong with the queue, with tables that are sound.
fn in_memory(terminal: &Terminal) -> Vec<Finding> {
    let Terminal { tables, waiting, .. } = terminal;
    let mut round = Waiting::FRESH;
    round.bytes[1..Waiting::SLOTS].copy_from_slice(&waiting.bytes[1..Waiting::SLOTS]);
    let round = (!sound(tables, &round)).then(|| Finding {
        place: "round".into(),
        byte: Tables::SIZE + 1,
        what: "neither zeros nor 1 and a credential number".into(),
    });
    let slots = Places {
        name: "waiting record",
        held: waiting.count().into(),
        capacity: Waiting::CAPACITY,
        count_at: Tables::SIZE,
        start: Tables::SIZE + Waiting::SLOTS,
        length: Waiting::SLOT,
        told: &|_| String::new(),
        together: &|places| {
            let slots: Vec<&[u8]> = places.iter().map(|&place| waiting.slot_bytes(place)).collect();
            sound(tables, &memory(&slots))
        },
        unused: &|place| {
            let mut unused = Waiting::FRESH;
            let at = Waiting::SLOTS + place * Waiting::SLOT;
            unused.bytes[at..at + Waiting::SLOT].copy_from_slice(waiting.slot_bytes(place));
            sound(tables, &unused)
        },
        fault: &|place| slot_fault(terminal, place),
        own: "sender",
    };
    round.into_iter().chain(slots.findings()).collect()
}

/// Memory with just these slots.
fn memory(slots: &[&[u8]]) -> Waiting {
    let mut waiting = Waiting::FRESH;
    waiting.bytes[0] = slots.len() as u8;
    let bytes = slots.concat();
    waiting.bytes[Waiting::SLOTS..Waiting::SLOTS + bytes.len()].copy_from_slice(&bytes);
    waiting
}

/// What is wrong with a waiting record by itself: what its hand-in would get, or else its place.
fn slot_fault(terminal: &Terminal, place: usize) -> String {
    let slot = &terminal.waiting.slots()[place];
    let mut alone = Terminal { waiting: Waiting::FRESH, ..terminal.clone() };
    let answer = alone.hand_in(&slot.record);
    if usize::from(slot.length) > RECORD_MAX {
        format!("its length is {}, and a record has at most {}", slot.length, RECORD_MAX)
    } else if !answer.is_permitted() {
        format!("a hand-in of it would get {}: {answer}", answer.number())
    } else {
        format!("it stands in the place of sender {}, or bytes behind it are not zero", slot.sender)
    }
}
