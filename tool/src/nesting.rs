//! How deep a TOML text is nested: the parser has no limit of its own, and would
//! run out of stack on a hostile file.

/// No file of expectations is nested deeper.
const DEEPEST: usize = 16;

/// The first line in which brackets, or the parts of a key, are nested deeper.
pub fn too_deep(text: &str) -> Option<usize> {
    let (mut depth, mut parts, mut line) = (0_usize, 0, 1);
    let mut rest = text;
    while let Some(letter) = rest.chars().next() {
        match letter {
            '[' | '{' => depth += 1,
            ']' | '}' => depth = depth.saturating_sub(1),
            '.' => parts += 1,
            '\n' => parts = 0,
            _ => {}
        }
        if depth.max(parts) > DEEPEST {
            return Some(line);
        }
        let (passed, after) = rest.split_at(quoted(rest).unwrap_or(letter.len_utf8()));
        line += passed.matches('\n').count();
        rest = after;
    }
    None
}

/// How long the string or the comment is that the text begins with. What does not end takes all the rest, as the parser does.
fn quoted(text: &str) -> Option<usize> {
    if text.starts_with('#') {
        return Some(text.find('\n').unwrap_or(text.len()));
    }
    let quote = ["\"\"\"", "'''", "\"", "'"].into_iter().find(|quote| text.starts_with(quote))?;
    let mut at = quote.len();
    while let Some(letter) = text[at..].chars().next() {
        if text[at..].starts_with(quote) {
            // Two more at its end belong to a string of several lines.
            let more = if quote.len() == 3 {
                text[at + 3..].chars().take(2).take_while(|&one| quote.starts_with(one)).count()
            } else {
                0
            };
            return Some(at + quote.len() + more);
        }
        let escape = letter == '\\' && quote.starts_with('"');
        let next = text[at + letter.len_utf8()..].chars().next().filter(|_| escape);
        at += letter.len_utf8() + next.map_or(0, char::len_utf8);
    }
    Some(text.len())
}

#[cfg(test)]
mod tests {
    use super::*;

    #[test]
    fn nested_texts() {
        assert_eq!(too_deep("[[expect]]\nname = \"x\"\n"), None);
        assert_eq!(too_deep(&format!("a = 1\nx = {}", "[".repeat(17))), Some(2));
        assert_eq!(too_deep(&format!("x = {}", "{a=".repeat(17))), Some(1));
        assert_eq!(too_deep(&format!("x = {}", "[\n".repeat(17))), Some(17));
        assert_eq!(too_deep(&"a.".repeat(17)), Some(1));
        assert_eq!(too_deep(&"a.b = 1\n".repeat(17)), None);
        assert_eq!(too_deep(&"[[expect]]\n".repeat(1000)), None);
    }

    #[test]
    fn what_stands_in_quotes_is_no_nesting() {
        let deep = "[".repeat(99);
        for text in [
            format!("a = \"{deep}\""),
            format!("a = '{deep}'"),
            format!("# {deep}"),
            format!("a = \"\\\"{deep}\""),
            format!("a = \"\"\"{deep}\"\"\"\"\""),
            format!("a = '''{deep}'''"),
        ] {
            assert_eq!(too_deep(&text), None, "{text}");
            assert_eq!(too_deep(&format!("{text}\n{deep}")), Some(2), "{text}");
        }
        // A bracket in quotes closes nothing.
        assert_eq!(too_deep(&"[ \"]\" , ".repeat(17)), Some(1));
        assert_eq!(too_deep(&format!("a = \"{deep}")), None);
    }
}
