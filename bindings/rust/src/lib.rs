//! The proved access decision of a weighbridge terminal, for Rust: libterminal.a
//! behind names and slices. It decides nothing itself.
//!
//! [`Terminal`] keeps the tables and the queue together, and is what
//! a program wants. [`interface`] has the functions of the C header one by
//! one, for a program that keeps both elsewhere.
//!
//! Every field of a record and of the tables has a type with names. These types
//! hold any number that the bits can hold, since records and tables may have any
//! content: [`Resource`]`(63)` is a resource that no terminal has.
//!
//! ```
//! use tillerclover::{doxm_body, pstat_body, Ace, Cred, Permission, Resource, Set, State, Subject, Terminal, Uuid, Verb};
//! use tillerclover::{record, ANYONE};
//!
//! let (owner, haulier): (Uuid, Uuid) =
//!     ("11111111-1111-1111-1111-111111111111".parse()?, "22222222-2222-2222-2222-222222222222".parse()?);
//! let mut yard = Terminal::new();
//!
//! // While nobody owns the terminal, anyone may set it up.
//! let row = Cred { number: 5, subject: owner, ..Cred::default() };
//! assert!(yard.judge(0, &record(Verb::UPDATE, Resource::CRED, ANYONE, &row.body())).answer.is_permitted());
//! let row = Cred { number: 7, subject: haulier, ..Cred::default() };
//! assert!(yard.judge(0, &record(Verb::UPDATE, Resource::CRED, ANYONE, &row.body())).answer.is_permitted());
//! let row = Ace {
//!     number: 1,
//!     subject: Subject::Uuid(haulier),
//!     permission: Permission::UPDATE,
//!     resources: Set::of(&[Resource::TARE]),
//!     ..Ace::default()
//! };
//! assert!(yard.judge(0, &record(Verb::UPDATE, Resource::ACL2, ANYONE, &row.body())).answer.is_permitted());
//! assert!(yard.judge(0, &record(Verb::UPDATE, Resource::DOXM, ANYONE, &doxm_body(owner))).answer.is_permitted());
//! for state in [State::RFPRO, State::RFNOP] {
//!     let moved = yard.judge(0, &record(Verb::UPDATE, Resource::PSTAT, 5, &pstat_body(state)));
//!     assert!(moved.answer.is_permitted());
//! }
//!
//! // The haulier may tare, and nothing else.
//! let tare = yard.judge(0, &record(Verb::UPDATE, Resource::TARE, 7, b"lorry"));
//! assert_eq!((tare.answer.number(), tare.permission, tare.payload.as_slice()), (0, Permission::UPDATE, &b"lorry"[..]));
//! let zero = yard.judge(0, &record(Verb::UPDATE, Resource::ZERO, 7, &[]));
//! assert_eq!(zero.answer.to_string(), "not permitted");
//! # Ok::<(), tillerclover::UuidError>(())
//! ```

//!
//! The crate needs no `std`. Without its feature `alloc`, which is on by default, it needs no allocator either:
//! [`interface`], [`Tables`], [`Waiting`], the rows and the names are there, and [`record_in`] builds a record in
//! a buffer.

#![no_std]
#![deny(missing_docs, unsafe_code)]

#[cfg(feature = "alloc")]
extern crate alloc;

/// The version of the interface, as in the C header.
pub const INTERFACE_MAJOR: u8 = 2;
/// What was added since.
pub const INTERFACE_MINOR: u8 = 0;
/// The version of the bytes of tables and waiting records, as in the C header: what was stored in another one means other
/// things.
pub const FORMAT: u8 = 1;

mod calls;
#[allow(unsafe_code)]
pub mod interface;
mod names;
mod record;
mod rows;
#[allow(unsafe_code)]
pub mod store;
mod tables;
#[cfg(feature = "alloc")]
mod terminal;
mod text;
mod uuid;
#[allow(unsafe_code)]
pub mod yards;

pub use interface::{Converted, Defaults, Listed, Outcome, Table, Taken, Tested};
pub use names::{Answer, Connection, Permission, PermissionError, Resource, Set, State, Verb, Wildcards};
pub use record::{doxm_body, pstat_body, record_in, Header, ANYONE};
#[cfg(feature = "alloc")]
pub use record::{record, Body};
pub use rows::{Ace, Asserted, Cred, OldRow, Period, Role, Subject};
#[cfg(feature = "alloc")]
pub use tables::Slot;
pub use tables::{Tables, Waiting};
#[cfg(feature = "alloc")]
pub use terminal::{Given, Response, Terminal};
pub use uuid::{Uuid, UuidError};
