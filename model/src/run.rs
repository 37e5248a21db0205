//! A whole run: records, each after a clock and its length, from fresh tables,
//! to text.

use crate::call::Case;
use crate::rules::judge;
use crate::tables::{fresh_bytes, STATE};

pub const RUN_MAX: usize = 32_768;

/// The text that the run program is to print for this input.
pub fn text(input: &[u8]) -> String {
    let mut rest = &input[..input.len().min(RUN_MAX)];
    let mut tables = fresh_bytes();
    let mut text = String::from("n answer perm state\n");
    let mut number = 0;
    while !rest.is_empty() {
        let Some((clock, record, after)) = split_record(rest) else {
            text.push_str("cut\n");
            break;
        };
        let outcome = judge(&Case { clock, ..Case::new(&tables, record) });
        tables = outcome.tables;
        number += 1;
        text.push_str(&format!(
            "{number} {} {} {}\n",
            outcome.response.answer, outcome.response.permission, tables[STATE]
        ));
        rest = after;
    }
    text
}

/// The first record with its clock, and the bytes after it; None when one of them
/// isn't all there.
fn split_record(bytes: &[u8]) -> Option<(u32, &[u8], &[u8])> {
    let (clock, rest) = bytes.split_first_chunk::<4>()?;
    let (length, rest) = rest.split_first_chunk::<2>()?;
    let (record, rest) = rest.split_at_checked(u16::from_be_bytes(*length).into())?;
    Some((u32::from_be_bytes(*clock), record, rest))
}

#[cfg(test)]
#[path = "tests/run.rs"]
mod tests;
