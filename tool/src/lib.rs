//! The command `tillerclover`: tables, records and lists of a weighbridge terminal
//! in words. The crate `answers` asks the proved library; here are files, locks,
//! options and the screen.

#![deny(unsafe_code)]

// The command line.
pub mod arguments;
pub mod command;
pub mod dispatch;
pub mod help;
pub mod manual;
pub mod names;
pub mod records;
pub mod screen;
pub mod version;

// The commands that do more than read tables and report.
pub mod boxing;
pub mod default_rows;
pub mod expect;
pub mod files;
pub mod journal;
pub mod judge;
pub mod list;
pub mod nesting;
pub mod new;
pub mod page;
pub mod run;
pub mod undo;
pub mod watch;
pub mod wire;
pub mod yards;

// Files.
pub mod error;
pub mod lock;
pub mod store;
#[allow(unsafe_code)]
mod system;
