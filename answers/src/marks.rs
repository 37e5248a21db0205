//! What is worth a second look in an access row: a season that is over, to come or
//! soon to end, a subject that is nobody's, a row that gives too much, nothing, or
//! only what another one gives.

use tillerclover::{Ace, Answer, Permission, Resource, Subject, Terminal, Verb};

use crate::report::many;
use crate::rights::Probe;
use crate::senders::Sender;

/// What is worth a second look.
#[derive(Clone, Copy, Debug, PartialEq, Eq)]
pub enum Mark {
    /// Its last second is before the clock.
    Over,
    /// Its first second is after the clock.
    ToCome,
    /// It holds now, and its last second comes within thirty days: in that many whole ones.
    EndsSoon(u32),
    /// Its subject fits no sender.
    NoSender,
    /// Its senders reach none of its resources.
    NoResource,
    /// Every credential may assert its role.
    OpenRole,
    /// The library's test of lists refuses it, by 21.
    Excessive,
    /// Its letters are needed by no verb that its resources offer.
    Nothing,
    /// The row of this number gives all that it gives, to the same senders and at the same seconds.
    Contained(u16),
}

/// The seconds of a day.
pub const DAY: u32 = 86_400;
/// A season that ends within these seconds ends soon.
pub const SOON: u32 = 30 * DAY;

impl Mark {
    /// In words.
    pub fn words(self) -> String {
        match self {
            Mark::Over => "season over".into(),
            Mark::ToCome => "season to come".into(),
            Mark::EndsSoon(0) => "season ends within a day".into(),
            Mark::EndsSoon(days) => format!("season ends in {}", many(days as usize, "day")),
            Mark::NoSender => "no sender fits".into(),
            Mark::NoResource => "its senders reach none of its resources".into(),
            Mark::OpenRole => "any credential may assert this role".into(),
            Mark::Excessive => "'list check' refuses such a row, 21".into(),
            Mark::Nothing => "gives nothing that its resources offer".into(),
            Mark::Contained(other) => format!("row {other} gives all of it too"),
        }
    }
}

/// Who there is, and what each connection reaches, asked once for all rows.
pub struct Marker {
    clock: u32,
    rows: Vec<Ace>,
    senders: Vec<(Sender, Probe)>,
    resources: Vec<Reached>,
}

/// A resource that is served over a connection.
struct Reached {
    sender: Sender,
    probe: Probe,
    /// The letters that a verb needs which the resource offers.
    useful: Permission,
}

impl Marker {
    /// For the rows of a sound terminal.
    pub fn new(terminal: &Terminal, clock: u32) -> Marker {
        let tables = &terminal.tables;
        // Everybody reaches doxm, whatever the connection.
        let probe = |sender: Sender, resource: Resource| {
            let (terminal, number) = sender.at(terminal);
            Probe::new(&terminal.tables, clock, sender.header(number, Verb::RETRIEVE, resource))
        };
        let all = Sender::all(tables).into_iter().chain(Sender::asserting(tables));
        let senders = all.map(|sender| (sender, probe(sender, Resource::DOXM))).collect();
        let needs: Vec<(Verb, Permission)> =
            Verb::ALL.iter().map(|&verb| (verb, probe(Sender::Clear, Resource::DOXM).needed_for(verb))).collect();
        let mut resources = Vec::new();
        // One sender of each connection represents all.
        for sender in Sender::all(tables).into_iter().take(2) {
            let (terminal, number) = sender.at(terminal);
            for &resource in Resource::ALL {
                let header = sender.header(number, Verb::RETRIEVE, resource);
                if terminal.ask(clock, &header.to_bytes()).answer != Answer::NO_ENDPOINT {
                    let probe = probe(sender, resource);
                    let offered = probe.offered();
                    let bits = needs.iter().filter(|(verb, _)| offered.contains(verb)).map(|(_, bit)| *bit);
                    resources.push(Reached {
                        sender,
                        probe,
                        useful: bits.fold(Permission::NONE, |all, bit| all | bit),
                    });
                }
            }
        }
        Marker { clock, rows: tables.aces(), senders, resources }
    }

    fn fitting(&self, row: Ace) -> Vec<Sender> {
        self.senders.iter().filter(|(_, probe)| probe.subject_fits(row)).map(|(sender, _)| *sender).collect()
    }

    /// The resources of a row that its senders reach.
    fn reached(&self, row: Ace, fitting: &[Sender]) -> Vec<&Reached> {
        let served = |sender: Sender| fitting.iter().any(|one| one.connection() == sender.connection());
        self.resources.iter().filter(|one| served(one.sender) && one.probe.resource_fits(row)).collect()
    }

    /// The marks of a row.
    pub fn marks(&self, row: Ace) -> Vec<Mark> {
        let mut marks: Vec<Mark> = self.season(row).into_iter().collect();
        let fitting = self.fitting(row);
        let reached = self.reached(row, &fitting);
        let gives = |one: &&Reached| !Permission(one.useful.number() & row.permission.number()).is_empty();
        if fitting.is_empty() {
            marks.push(Mark::NoSender);
        } else if reached.is_empty() {
            marks.push(Mark::NoResource);
        } else if !reached.iter().any(gives) {
            marks.push(Mark::Nothing);
        }
        if matches!(row.subject, Subject::Role(_)) && !fitting.is_empty() {
            marks.push(Mark::OpenRole);
        }
        if Terminal::test_list(&row.body()).answer == Answer::TEST_EXCESSIVE {
            marks.push(Mark::Excessive);
        }
        marks.extend(self.container(row, &fitting));
        marks
    }

    fn season(&self, row: Ace) -> Option<Mark> {
        let left = row.period.last.checked_sub(self.clock);
        match left {
            None => Some(Mark::Over),
            Some(_) if row.period.first > self.clock => Some(Mark::ToCome),
            Some(left) if left < SOON && row.period.last != u32::MAX => Some(Mark::EndsSoon(left / DAY)),
            Some(_) => None,
        }
    }

    /// A row that gives all that this one gives. Of two that give the same, the first one does.
    fn container(&self, row: Ace, fitting: &[Sender]) -> Option<Mark> {
        let place = self.rows.iter().position(|one| one.number == row.number)?;
        let contains = |other: &Ace, fitting: &[Sender]| {
            other.number != row.number
                && other.permission.contains(row.permission)
                && (other.period.first <= row.period.first && row.period.last <= other.period.last)
                && self.subject_contains(*other, row, fitting)
                && self.resources.iter().all(|one| !one.probe.resource_fits(row) || one.probe.resource_fits(*other))
        };
        let found = self
            .rows
            .iter()
            .enumerate()
            .find(|(at, other)| contains(other, fitting) && (*at < place || !self.same(**other, row)));
        found.map(|(_, other)| Mark::Contained(other.number))
    }

    /// Whether the other row is for the same subject, or for the connection of all senders whom this one fits.
    fn subject_contains(&self, other: Ace, row: Ace, fitting: &[Sender]) -> bool {
        let connection = matches!(other.subject, Subject::Connection(_)) && !fitting.is_empty();
        let fits = |(sender, probe): &(Sender, Probe)| !fitting.contains(sender) || probe.subject_fits(other);
        other.subject == row.subject || connection && self.senders.iter().all(fits)
    }

    /// Whether two rows say the same under two numbers.
    fn same(&self, one: Ace, other: Ace) -> bool {
        Ace { number: other.number, ..one } == other
    }
}

/// The marks of all access rows; none where the terminal is not sound.
pub fn all(terminal: &Terminal, clock: u32) -> Vec<Vec<Mark>> {
    let rows = terminal.tables.aces();
    if !terminal.is_sound() {
        return vec![Vec::new(); rows.len()];
    }
    let marker = Marker::new(terminal, clock);
    rows.into_iter().map(|row| marker.marks(row)).collect()
}
