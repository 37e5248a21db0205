//! What the proved library answers about a terminal, explained in words and as
//! JSON. It decides nothing itself, and needs no file, no clock and no screen.
//!
//! What surrounds a program is given to it: the zone and the second of the clock
//! (`times`), the yard's names (`names`), and whether there are colours (`colour`).
//! Each thread has its own.

#![forbid(unsafe_code)]

// What people write and read.
pub mod colour;
pub mod csv;
pub mod hex;
pub mod names;
pub mod parse;
pub mod steps;
pub mod times;
pub mod words;

// What the library is asked.
pub mod diff;
pub mod fresh;
pub mod journal;
pub mod judge;
pub mod list;
pub mod load;
pub mod marks;
pub mod matrix;
pub mod office;
pub mod plan;
pub mod rights;
pub mod seasons;
pub mod senders;
pub mod service;
pub mod sheet;
pub mod show;
pub mod soundness;
pub mod when;
pub mod who;
pub mod why;
pub mod yards;

// What comes in, and what goes out.
pub mod error;
pub mod report;
pub mod stored;
