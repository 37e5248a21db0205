//! Two questions of include/tillerclover_yards.h: are the partners of a yard isolated from everybody else, and does the
//! archive belong to this crate. docs/QUESTIONS.md says what 'isolated' guarantees, and how long.
//!
//! ```
//! use tillerclover::yards::{isolated, Isolation};
//! use tillerclover::{Cred, State, Terminal, Uuid};
//!
//! let mut tables = Terminal::new().tables;
//! let row = |number: u8| Cred { number: number.into(), subject: Uuid([number; 16]), ..Cred::default() };
//! tables.set_creds(&[row(5), row(7)]);
//! assert_eq!(isolated(&tables, &[0, 7]), Isolation::NoOwner);
//! tables.set_owner(Uuid([5; 16]));
//! tables.state = State::RFPRO.0;
//! assert_eq!(isolated(&tables, &[0, 7]), Isolation::Isolated);
//! assert_eq!(isolated(&tables, &[0, 7, 0, 5]), Isolation::NamesOwner { entry: 2 });
//! assert_eq!(isolated(&tables, &[0, 7, 0]).to_string(), "the list has an odd number of bytes");
//! ```

#[cfg(feature = "alloc")]
use alloc::vec::Vec;
use core::fmt;

use crate::interface::parts;
use crate::tables::Tables;
#[cfg(feature = "alloc")]
use crate::terminal::Terminal;

/// The identity that this crate is made for, as in the header.
pub const IDENTITY: u64 = 1_002_000;

/// Whether the senders of a list are isolated, or the first reason why they may not be. Entries and rows are counted from 1.
#[must_use]
#[derive(Clone, Copy, Debug, PartialEq, Eq)]
pub enum Isolation {
    /// Whatever they send changes nothing for anybody else.
    Isolated,
    /// The list has an odd number of bytes.
    OddLength,
    /// The tables are not sound.
    NotSound,
    /// There is no owner, so that anybody may write.
    NoOwner,
    /// The sender of the entry has an owner's subject.
    NamesOwner {
        /// The entry.
        entry: usize,
    },
    /// The sender of the entry may be given create, update or delete on a security resource.
    MayAlter {
        /// The entry.
        entry: usize,
        /// The place of the access row that may give it.
        row: usize,
    },
}

impl Isolation {
    /// The reason's number, as in the header; 0 for isolated.
    #[must_use]
    pub const fn number(self) -> u8 {
        match self {
            Isolation::Isolated => 0,
            Isolation::OddLength => 1,
            Isolation::NotSound => 2,
            Isolation::NoOwner => 3,
            Isolation::NamesOwner { .. } => 4,
            Isolation::MayAlter { .. } => 5,
        }
    }

    /// Reason, entry and row as the library says them; none, if these are no answer of the library.
    #[must_use]
    pub const fn from_words(reason: u64, entry: usize, row: usize) -> Option<Isolation> {
        Some(match reason {
            0 => Isolation::Isolated,
            1 => Isolation::OddLength,
            2 => Isolation::NotSound,
            3 => Isolation::NoOwner,
            4 => Isolation::NamesOwner { entry },
            5 => Isolation::MayAlter { entry, row },
            _ => return None,
        })
    }

    /// Whether it is the answer 'isolated'.
    #[must_use]
    pub fn is_isolated(self) -> bool {
        self == Isolation::Isolated
    }
}

impl fmt::Display for Isolation {
    fn fmt(&self, text: &mut fmt::Formatter) -> fmt::Result {
        match self {
            Isolation::Isolated => write!(text, "isolated"),
            Isolation::OddLength => write!(text, "the list has an odd number of bytes"),
            Isolation::NotSound => write!(text, "the tables are not sound"),
            Isolation::NoOwner => write!(text, "there is no owner, so that anybody may write"),
            Isolation::NamesOwner { entry } => write!(text, "entry {entry} has an owner's subject"),
            Isolation::MayAlter { entry, row } => {
                write!(
                    text,
                    "entry {entry} may be given create, update or delete on a security resource by access row {row}"
                )
            }
        }
    }
}

extern "C" {
    fn tillerclover_isolated_at(
        counts: *const u8,
        devowner: *const u8,
        rowners: *const u8,
        creds: *const u8,
        aces: *const u8,
        senders: *const u8,
        length: u64,
        said: *mut u64,
    );
    fn tillerclover_identity() -> u64;
}

// The library takes any bytes, keeps no pointer and reads within only the lengths. Each pointer below is that of a part of living
// tables, of the length that the library reads, or of a slice with its own length; the three words are a local of the call.

/// Whether the senders of a list are isolated in these tables. An entry is two bytes, a credential number with its most
/// significant byte first; 0 is everybody without one. Any bytes are allowed.
pub fn isolated(tables: &Tables, senders: &[u8]) -> Isolation {
    let ([t0, t1, t2, t3, t4], length, mut said) = (parts(tables), senders.len() as u64, [0; 3]);
    unsafe { tillerclover_isolated_at(t0, t1, t2, t3, t4, senders.as_ptr(), length, said.as_mut_ptr()) }
    let [reason, entry, row] = said;
    Isolation::from_words(reason, entry as usize, row as usize).expect("a reason of the library's")
}

/// The list of these credential numbers, for [`isolated`].
#[cfg(feature = "alloc")]
#[must_use]
pub fn list(senders: &[u16]) -> Vec<u8> {
    senders.iter().flat_map(|number| number.to_be_bytes()).collect()
}

#[cfg(feature = "alloc")]
impl Terminal {
    /// Whether the partners with these credential numbers are isolated from everybody else; 0 is everybody without one.
    ///
    /// ```
    /// use tillerclover::yards::Isolation;
    /// use tillerclover::Terminal;
    /// assert_eq!(Terminal::new().isolated(&[7, 8]), Isolation::NoOwner);
    /// ```
    pub fn isolated(&self, senders: &[u16]) -> Isolation {
        isolated(&self.tables, &list(senders))
    }
}

/// The archive's identity.
#[must_use]
pub fn identity() -> u64 {
    unsafe { tillerclover_identity() }
}

/// Whether the archive belongs to this crate. [`Terminal`](crate::Terminal) asks when it is made.
///
/// ```
/// assert!(tillerclover::yards::identified());
/// ```
#[must_use]
pub fn identified() -> bool {
    identity() == IDENTITY
}
