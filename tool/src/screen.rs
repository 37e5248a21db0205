//! What surrounds the command: the screen, and the system's clock.

use std::env;
use std::io::{self, IsTerminal};
use std::time::SystemTime;

use crate::system::columns_of_output;
pub use crate::system::output_is_closed;

/// Whether there are colours: `always`, `never`, or `auto` where a terminal shows the output and NO_COLOR is not set.
pub fn colours(when: &str) -> bool {
    let plain = env::var_os("NO_COLOR").is_some_and(|set| !set.is_empty());
    let dumb = env::var_os("TERM").is_some_and(|name| name == "dumb");
    match when {
        "always" => true,
        "never" => false,
        _ => io::stdout().is_terminal() && !plain && !dumb,
    }
}

/// How many letters a line of the screen has, where a screen shows the output.
pub fn width() -> Option<usize> {
    let columns = io::stdout().is_terminal().then(columns_of_output).flatten();
    columns.map(usize::from).filter(|&columns| columns >= 20)
}

/// The system's clock, where it is a second that a terminal's clock has.
pub fn now() -> Option<u32> {
    let past = SystemTime::now().duration_since(SystemTime::UNIX_EPOCH).ok()?;
    u32::try_from(past.as_secs()).ok()
}
