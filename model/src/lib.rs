//! A second model of the terminal's access rules, written from the scope paper
//! and only the change requests, and the means to compare the proved library
//! with it.

#![forbid(unsafe_code)]

// The rules. Of what follows them they import nothing, except for their tests.
pub mod answers;
pub mod bits;
pub mod call;
pub mod defaults;
pub mod directory;
pub mod isolation;
pub mod office;
pub mod older;
pub mod provisioning;
pub mod queue;
pub mod record;
pub mod rules;
pub mod run;
pub mod store;
pub mod tables;

// What is put to them.
pub mod examples;
pub mod files;
pub mod generate;
pub mod lists;
pub mod others;
pub mod queries;
pub mod questions;
pub mod random;
pub mod spoil;
pub mod systematic;
pub mod texts;
pub mod vectors;

// What the programs share.
pub mod case;
pub mod hex;
pub mod histogram;
pub mod known;
pub mod options;

#[cfg(feature = "linked")]
pub mod library;
