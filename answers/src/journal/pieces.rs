//! The lines of a journal as they are read: whole ones, those that are too long, and a
//! last one without its end. No more than a line is kept.

use std::io::{self, BufRead};

use super::line::LONGEST;

/// What stands between two line feeds.
#[derive(Debug, PartialEq, Eq)]
pub enum Piece<'a> {
    /// A line without its line feed.
    Line(&'a [u8]),
    /// A line that is longer than any may be.
    Long,
    /// The last bytes, without a line feed.
    Torn(&'a [u8]),
}

impl Piece<'_> {
    /// Why it is no line, where it is none.
    pub fn fault(&self) -> Option<String> {
        match self {
            Piece::Line(_) => None,
            Piece::Long => Some(format!("has more than the {LONGEST} bytes that a line has")),
            Piece::Torn(bytes) => Some(format!("is torn: the file ends after {} bytes of it", bytes.len())),
        }
    }
}

/// Reads lines until there are no more, or until `each` says that it has seen enough.
pub fn pieces(mut reader: impl BufRead, mut each: impl FnMut(Piece) -> bool) -> io::Result<()> {
    let mut line: Vec<u8> = Vec::new();
    let mut long = false;
    loop {
        let buffer = reader.fill_buf()?;
        if buffer.is_empty() {
            if !line.is_empty() || long {
                each(if long { Piece::Long } else { Piece::Torn(&line) });
            }
            return Ok(());
        }
        let end = buffer.iter().position(|&byte| byte == b'\n');
        let part = &buffer[..end.unwrap_or(buffer.len())];
        long |= line.len() + part.len() >= LONGEST;
        if !long {
            line.extend_from_slice(part);
        }
        let used = part.len() + usize::from(end.is_some());
        reader.consume(used);
        if end.is_some() {
            if !each(if long { Piece::Long } else { Piece::Line(&line) }) {
                return Ok(());
            }
            line.clear();
            long = false;
        }
    }
}

#[cfg(test)]
mod tests {
    use super::*;

    fn said(bytes: &[u8], room: usize) -> Vec<String> {
        let mut found = Vec::new();
        let seen = |piece: Piece| {
            found.push(match piece {
                Piece::Line(line) => format!("line {}", String::from_utf8_lossy(line)),
                Piece::Long => "long".into(),
                Piece::Torn(rest) => format!("torn {}", String::from_utf8_lossy(rest)),
            });
            true
        };
        pieces(io::BufReader::with_capacity(room, bytes), seen).unwrap();
        found
    }

    #[test]
    fn lines_of_all_lengths() {
        for room in [1, 2, 3, 100] {
            assert_eq!(said(b"a\n\nbc\nd", room), ["line a", "line ", "line bc", "torn d"]);
            assert_eq!(said(b"", room), Vec::<String>::new());
        }
        let most = [vec![b'x'; LONGEST - 1], vec![b'\n']].concat();
        let more = [vec![b'x'; LONGEST], b"\ny\n".to_vec()].concat();
        assert_eq!(said(&most, 500).len(), 1);
        assert!(said(&most, 500)[0].starts_with("line x"));
        assert_eq!(said(&more, 500), ["long", "line y"]);
        assert_eq!(said(&vec![b'x'; 100_000], 500), ["long"]);
    }
}
