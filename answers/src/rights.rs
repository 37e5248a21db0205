//! What a sender may do with a resource, and where each part of it comes from. All
//! of it is asked of the library, on tables with only one source of permission.

use tillerclover::{
    Ace, Answer, Header, Period, Permission, Resource, Response, Set, State, Subject, Tables, Terminal,
};
use tillerclover::{Uuid, Verb, Waiting, Wildcards};

/// What was needed, and what there is.
#[derive(Clone, Debug, PartialEq, Eq)]
pub struct Rights {
    /// What the verb needs.
    pub needed: Permission,
    /// What the sender has without access rows.
    pub sources: Vec<Source>,
    /// What each access row does for it.
    pub rows: Vec<Fit>,
}

/// A source of permission that is no access row.
#[derive(Clone, Debug, PartialEq, Eq)]
pub struct Source {
    /// Why the sender has it.
    pub why: String,
    /// What the library permits with only it.
    pub share: Permission,
}

/// An access row, as a record meets it.
#[derive(Clone, Debug, PartialEq, Eq)]
pub struct Fit {
    /// The row.
    pub row: Ace,
    /// Whether it would fit if it were for this resource at every second.
    pub subject: bool,
    /// Whether it would fit if it were for this connection at every second.
    pub resource: bool,
    /// Whether it would fit if it were for this connection and resource.
    pub season: bool,
    /// Whether it fits.
    pub fits: bool,
    /// What the library permits with only this row.
    pub share: Permission,
}

impl Rights {
    /// The union of all shares.
    pub fn there(&self) -> Permission {
        let sources = self.sources.iter().map(|source| source.share);
        sources.chain(self.rows.iter().map(|row| row.share)).fold(Permission::NONE, |union, share| union | share)
    }
}

/// The rights of a record that the checks 1 to 7 and 16 let pass, on sound tables.
pub fn rights(tables: &Tables, clock: u32, header: Header) -> Rights {
    let probe = Probe::new(tables, clock, header);
    Rights {
        needed: probe.needed(),
        sources: probe.sources(tables),
        rows: tables.aces().iter().map(|row| probe.fit(*row)).collect(),
    }
}

/// The effective permission of a sender, as `rights` has it, without what each row does for it.
pub fn held(tables: &Tables, clock: u32, header: Header) -> Permission {
    let probe = Probe::new(tables, clock, header);
    let sources = probe.sources(tables).into_iter().map(|source| source.share);
    let rows = tables.aces().into_iter().filter(|row| probe.fits(*row)).map(|row| row.permission);
    sources.chain(rows).fold(Permission::NONE, |union, share| union | share)
}

/// A sender, a resource and a clock, and tables in which the sender has nothing but its connection.
pub struct Probe {
    bare: Tables,
    clock: u32,
    header: Header,
}

impl Probe {
    /// For a record on these tables.
    pub fn new(tables: &Tables, clock: u32, header: Header) -> Probe {
        let mut bare = Tables { state: State::RFNOP.number(), rowners: [0; 64], ..*tables };
        bare.set_aces(&[]);
        bare.set_owner(stranger(tables));
        Probe { bare, clock, header }
    }

    /// What the library says to a record without a body of this sender.
    fn ask(&self, tables: &Tables, verb: Verb, resource: Resource) -> Response {
        let record = Header { verb, resource, ..self.header }.to_bytes();
        let mut terminal = Terminal { tables: *tables, waiting: Waiting::FRESH, defaults: Default::default() };
        terminal.judge(self.clock, &record)
    }

    /// The bare tables with access rows.
    fn with(&self, rows: &[Ace]) -> Tables {
        let mut tables = self.bare;
        tables.set_aces(rows);
        tables
    }

    /// A row for this connection and a resource, at every second.
    fn row(&self, number: u16, resource: Resource, permission: Permission) -> Ace {
        let subject = Subject::Connection(self.header.connection);
        Ace { number, subject, permission, resources: Set::of(&[resource]), ..Ace::default() }
    }

    /// The effective permission on tables with one access row at the most. The library tells it with a permit alone, so
    /// a second row lets the sender read, and is then taken off again.
    fn effective(&self, tables: &Tables) -> Permission {
        let resource = self.header.resource;
        let mut rows = tables.aces();
        let number = if rows.iter().any(|row| row.number == 1) { 2 } else { 1 };
        rows.push(self.row(number, resource, Permission::RETRIEVE));
        let mut helped = *tables;
        helped.set_aces(&rows);
        let told = self.ask(&helped, Verb::RETRIEVE, resource);
        let reads = self.ask(tables, Verb::RETRIEVE, resource).answer != Answer::NOT_PERMITTED;
        if reads {
            told.permission
        } else {
            told.permission.without(Permission::RETRIEVE)
        }
    }

    /// The bit without which the verb of the record is not permitted.
    fn needed(&self) -> Permission {
        self.needed_for(self.header.verb)
    }

    /// The bit without which a verb is not permitted.
    pub fn needed_for(&self, verb: Verb) -> Permission {
        // Nobody has anything on doxm without a row here.
        let asked = |bit: Permission| {
            let tables = self.with(&[self.row(1, Resource::DOXM, bit)]);
            self.ask(&tables, verb, Resource::DOXM).answer != Answer::NOT_PERMITTED
        };
        Permission::ALL.bits().filter(|&bit| asked(bit)).fold(Permission::NONE, |union, bit| union | bit)
    }

    /// The verbs that the resource offers, to one who may do everything.
    pub fn offered(&self) -> Vec<Verb> {
        let resource = self.header.resource;
        let tables = self.with(&[self.row(1, resource, Permission::ALL)]);
        let offers = |verb: &Verb| self.ask(&tables, *verb, resource).answer != Answer::NOT_OFFERED;
        Verb::ALL.iter().copied().filter(offers).collect()
    }

    fn sources(&self, tables: &Tables) -> Vec<Source> {
        let Header { connection, resource, .. } = self.header;
        let alone = self.effective(&self.bare);
        let mut sources = Vec::new();
        let mut add = |share: Permission, beyond: Permission, why: String| {
            if !share.without(beyond).is_empty() {
                sources.push(Source { why, share });
            }
        };
        add(alone, Permission::NONE, format!("everybody has this on {resource} over {connection}"));
        if tables.owned == 0 {
            let mut unowned = Tables { state: State::RFOTM.number(), ..self.bare };
            unowned.set_owner(Uuid::NIL);
            add(self.effective(&unowned), alone, "nobody owns the terminal, so everybody may set it up".into());
        } else {
            let mut owned = self.bare;
            owned.set_owner(tables.owner());
            add(self.effective(&owned), alone, "the sender is the device owner".into());
        }
        let row_owned = Tables { rowners: tables.rowners, ..self.bare };
        add(self.effective(&row_owned), alone, format!("the sender is the row owner of {resource}"));
        sources
    }

    /// Whether a row fits, whatever it gives.
    pub fn fits(&self, row: Ace) -> bool {
        self.effective(&self.with(&[Ace { permission: Permission::ALL, ..row }])) == Permission::ALL
    }

    /// Whether a row would fit if it were for this resource at every second.
    pub fn subject_fits(&self, row: Ace) -> bool {
        let resources = Set::of(&[self.header.resource]);
        self.fits(Ace { resources, wildcards: Wildcards::NONE, period: Period::ALWAYS, ..row })
    }

    /// Whether a row would fit if it were for this connection at every second.
    pub fn resource_fits(&self, row: Ace) -> bool {
        self.fits(Ace { subject: Subject::Connection(self.header.connection), period: Period::ALWAYS, ..row })
    }

    /// Whether a row would fit if it were for this connection and resource.
    fn season_fits(&self, row: Ace) -> bool {
        let subject = Subject::Connection(self.header.connection);
        let resources = Set::of(&[self.header.resource]);
        self.fits(Ace { subject, resources, wildcards: Wildcards::NONE, ..row })
    }

    fn fit(&self, row: Ace) -> Fit {
        let fits = self.fits(row);
        let told = self.effective(&self.with(&[row]));
        Fit {
            row,
            subject: self.subject_fits(row),
            resource: self.resource_fits(row),
            season: self.season_fits(row),
            fits,
            // What everybody has is no share of the row.
            share: if fits { Permission(told.number() & row.permission.number()) } else { Permission::NONE },
        }
    }
}

/// A UUID that no credential row has.
fn stranger(tables: &Tables) -> Uuid {
    let known: Vec<Uuid> = tables.creds().iter().map(|row| row.subject).collect();
    (1..=u8::MAX).map(|byte| Uuid([byte; 16])).find(|uuid| !known.contains(uuid)).unwrap_or_default()
}
