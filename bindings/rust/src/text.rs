//! Short texts without an allocator, so that they can be padded to a width.

use core::fmt::{self, Write};

/// Up to that many bytes of text; more is an error.
struct Short<const N: usize> {
    bytes: [u8; N],
    length: usize,
}

impl<const N: usize> Write for Short<N> {
    fn write_str(&mut self, text: &str) -> fmt::Result {
        let end = self.length + text.len();
        self.bytes.get_mut(self.length..end).ok_or(fmt::Error)?.copy_from_slice(text.as_bytes());
        self.length = end;
        Ok(())
    }
}

/// Writes a text of at most 48 bytes with the width that the formatter asks for.
pub(crate) fn pad(f: &mut fmt::Formatter, text: fmt::Arguments) -> fmt::Result {
    let mut short = Short { bytes: [0; 48], length: 0 };
    short.write_fmt(text)?;
    f.pad(core::str::from_utf8(&short.bytes[..short.length]).map_err(|_| fmt::Error)?)
}
