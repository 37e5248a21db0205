//! A terminal's journal (docs/JOURNAL.md): its lines are read, its chain is followed, and
//! every answer is judged again by the library. Lines come in, and reports go out.

mod check;
mod entries;
mod line;
mod moment;
mod pieces;
mod replay;

pub use check::Check;
pub use entries::{Filter, Listed, Shown};
pub use line::{file_number, Entry, What, LONGEST};
pub use moment::{At, Why};
pub use pieces::{pieces, Piece};
pub use replay::{Replay, Seen};
