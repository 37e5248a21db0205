//! Colours for a terminal: green for what passes, red for what does not, yellow
//! for what is worth a second look. None until they are switched on.

use std::cell::Cell;

thread_local! {
    static ON: Cell<bool> = const { Cell::new(false) };
}

/// What a word is.
#[derive(Clone, Copy, Debug, PartialEq, Eq)]
pub enum Tone {
    /// It passes.
    Good,
    /// It does not.
    Bad,
    /// Worth a second look.
    Mark,
    /// A headline.
    Head,
}

/// Switches colours on or off, for what this thread writes.
pub fn switch(on: bool) {
    ON.set(on);
}

/// A text in its colour.
pub fn paint(tone: Tone, text: &str) -> String {
    if text.is_empty() || !ON.get() {
        return text.into();
    }
    let code = match tone {
        Tone::Good => "32",
        Tone::Bad => "31",
        Tone::Mark => "33",
        Tone::Head => "1",
    };
    format!("\x1b[{code}m{text}\x1b[0m")
}

/// A text in the colour of an answer.
pub fn verdict(good: bool, text: &str) -> String {
    paint(if good { Tone::Good } else { Tone::Bad }, text)
}
