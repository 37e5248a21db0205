//! A terminal: the tables, the queue and the build's default rows,
//! kept together, since they belong together.

use alloc::string::String;
use alloc::vec::Vec;

use crate::interface::{self, Defaults, Outcome, Tested, CONVERTED_MAX, REPLY_MAX, TEXT_MAX};
use crate::names::{Answer, Permission, Set};
use crate::tables::{Tables, Waiting};

/// Default rows that a terminal keeps.
#[derive(Clone, Debug, Default, PartialEq, Eq)]
pub struct Given {
    /// Credential rows, bodies of 23 bytes.
    pub creds: Vec<u8>,
    /// Access rows, bodies of 36 bytes.
    pub aces: Vec<u8>,
}

impl Given {
    /// Lent to a call.
    pub fn lent(&self) -> Defaults<'_> {
        Defaults { creds: &self.creds, aces: &self.aces }
    }
}

/// The tables, the queue, and the build's default rows.
///
/// ```
/// use tillerclover::{record, Answer, Resource, Terminal, Verb, ANYONE};
/// let mut yard = Terminal::new();
/// let read = record(Verb::RETRIEVE, Resource::DOXM, ANYONE, &[]);
/// assert_eq!(yard.hand_in(&read), Answer::KEPT);
/// assert_eq!(yard.hand_in(&read), Answer::OCCUPIED);
/// let (taken, judged) = yard.take(0);
/// assert_eq!((taken, judged.reply.len()), (read, 33));
/// assert_eq!(yard.take(0).1.answer, Answer::NOTHING_WAITING);
/// assert_eq!(yard.access_list(), Ok(r#"{"aclist2":[]}"#.to_string()));
/// ```
#[derive(Clone, Debug, PartialEq, Eq)]
pub struct Terminal {
    /// The tables that hold now.
    pub tables: Tables,
    /// The queue.
    pub waiting: Waiting,
    /// The build's default rows.
    pub defaults: Given,
}

/// What the sender of a record gets. It must be looked at:
///
/// ```compile_fail
/// #![deny(unused_must_use)]
/// tillerclover::Terminal::new().judge(0, &[]);
/// ```
#[must_use = "a decision that nobody looks at decides nothing"]
#[derive(Clone, Debug, PartialEq, Eq)]
pub struct Response {
    /// Permitted, or the first refusal that applies.
    pub answer: Answer,
    /// The effective permission before the record changed the tables; of a refusal none.
    pub permission: Permission,
    /// What the record passes on.
    pub payload: Vec<u8>,
    /// What a RETRIEVE of a security resource gets.
    pub reply: Vec<u8>,
    /// The places to store after a DELETE, counted from 0.
    pub places: core::ops::Range<usize>,
    /// The links of /yard that the sender may use.
    pub links: Set,
}

impl Response {
    fn new(outcome: &Outcome, record: &[u8], reply: &[u8]) -> Response {
        Response {
            answer: outcome.answer,
            permission: outcome.permission,
            payload: record[outcome.payload_offset..][..outcome.payload_length].to_vec(),
            reply: reply[..outcome.reply_length].to_vec(),
            places: outcome.store_first..outcome.store_first + outcome.store_count,
            links: outcome.link_set,
        }
    }
}

impl Default for Terminal {
    fn default() -> Terminal {
        Terminal::new()
    }
}

impl Terminal {
    /// A new terminal without default rows.
    pub fn new() -> Terminal {
        Terminal::with_defaults(Given::default())
    }

    /// A new terminal with default rows.
    ///
    /// ```
    /// use tillerclover::{Cred, Given, Terminal, Uuid};
    /// let maker = Cred { number: 1, subject: Uuid([9; 16]), ..Cred::default() };
    /// let mut yard = Terminal::with_defaults(Given { creds: maker.body().to_vec(), aces: Vec::new() });
    /// assert_eq!(yard.tables.creds(), [maker]);
    /// yard.tables.state = 9;
    /// assert!(!yard.is_sound());
    /// yard.clear();
    /// assert!(yard.is_sound());
    /// assert_eq!(yard.tables.creds(), [maker]);
    /// ```
    ///
    /// # Panics
    ///
    /// Where the archive is not of this crate's build.
    pub fn with_defaults(defaults: Given) -> Terminal {
        assert!(crate::yards::identified(), "the archive and this crate are not of one build");
        let (mut tables, mut waiting) = (Tables::default(), Waiting::FRESH);
        interface::fresh(&mut tables, &mut waiting, defaults.lent());
        Terminal { tables, waiting, defaults }
    }

    /// Judges a record directly, at this clock.
    pub fn judge(&mut self, clock: u32, record: &[u8]) -> Response {
        let mut reply = [0; REPLY_MAX];
        let Terminal { tables, waiting, defaults } = self;
        let outcome = interface::judge(tables, waiting, defaults.lent(), clock, record, &mut reply);
        Response::new(&outcome, record, &reply)
    }

    /// What a record would get at this clock. Nothing changes.
    ///
    /// ```
    /// use tillerclover::{record, Resource, Terminal, Verb, ANYONE};
    /// let yard = Terminal::new();
    /// assert!(yard.ask(0, &record(Verb::RETRIEVE, Resource::DOXM, ANYONE, &[])).answer.is_permitted());
    /// ```
    pub fn ask(&self, clock: u32, record: &[u8]) -> Response {
        self.clone().judge(clock, record)
    }

    /// Hands a record in, to wait for its turn.
    pub fn hand_in(&mut self, record: &[u8]) -> Answer {
        interface::hand_in(&self.tables, &mut self.waiting, record).answer
    }

    /// Takes the record whose turn it is, and judges it at this clock.
    pub fn take(&mut self, clock: u32) -> (Vec<u8>, Response) {
        let mut reply = [0; REPLY_MAX];
        let Terminal { tables, waiting, defaults } = self;
        let taken = interface::take(tables, waiting, defaults.lent(), clock, &mut reply);
        (taken.record[..taken.record_length].to_vec(), Response::new(&taken.outcome, &taken.record, &reply))
    }

    /// The clear button.
    pub fn clear(&mut self) {
        interface::clear(&mut self.tables, &mut self.waiting, self.defaults.lent());
    }

    /// Whether tables and memory are sound.
    #[must_use]
    pub fn is_sound(&self) -> bool {
        interface::is_sound(&self.tables, &self.waiting)
    }

    /// The access list as the office's JSON, or why there is none.
    ///
    /// ```
    /// fn office_text(yard: &tillerclover::Terminal) -> Result<String, Box<dyn std::error::Error>> {
    ///     Ok(yard.access_list()?)
    /// }
    /// let mut yard = tillerclover::Terminal::new();
    /// yard.tables.state = 9;
    /// assert_eq!(office_text(&yard).unwrap_err().to_string(), "no text: tables not sound");
    /// ```
    pub fn access_list(&self) -> Result<String, Answer> {
        let mut text = [0; TEXT_MAX];
        let listed = interface::access_list(&self.tables, &self.waiting, &mut text);
        match listed.answer {
            Answer::PERMITTED => Ok(text[..listed.length].iter().copied().map(char::from).collect()),
            refusal => Err(refusal),
        }
    }

    /// Tests a list of access rows before it is loaded.
    #[must_use]
    pub fn test_list(rows: &[u8]) -> Tested {
        interface::test_list(rows)
    }

    /// Makes access rows of an older terminal's list, or says why there are none.
    ///
    /// ```
    /// use tillerclover::{Answer, Terminal};
    /// assert_eq!(Terminal::convert_list(&[]), Ok(Vec::new()));
    /// assert_eq!(Terminal::convert_list(&[0; 24]), Err(Answer::CONVERT_BAD_FILE));
    /// ```
    pub fn convert_list(file: &[u8]) -> Result<Vec<u8>, Answer> {
        let mut rows = [0; CONVERTED_MAX];
        let converted = interface::convert_list(file, &mut rows);
        match converted.answer {
            Answer::PERMITTED => Ok(rows[..converted.length].to_vec()),
            refusal => Err(refusal),
        }
    }
}
