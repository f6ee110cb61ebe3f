//! How deeply a TOML text is nested: the parser calls itself for each level, and would run out of stack.

/// Far more than a house needs, and few enough for any stack.
const DEEPEST: usize = 100;

/// What the bytes at a place belong to.
enum Part {
    Plain,
    Comment,
    /// A string, with the quotes that end it.
    Text(&'static [u8]),
}

/// Where brackets or the parts of a key are nested too deeply.
pub(crate) fn too_deep(text: &str) -> Option<usize> {
    let bytes = text.as_bytes();
    let (mut at, mut part) = (0, Part::Plain);
    let (mut brackets, mut dots) = (0_usize, 0_usize);
    while at < bytes.len() {
        let byte = bytes[at];
        match part {
            Part::Comment if byte == b'\n' => part = Part::Plain,
            Part::Comment => {}
            Part::Text(end) if bytes[at..].starts_with(end) => {
                at += end.len() - 1;
                part = Part::Plain;
            }
            Part::Text(b"\"" | b"\"\"\"") if byte == b'\\' => at += 1,
            // A string in one line that has no end is a fault, which the parser tells.
            Part::Text([_]) if byte == b'\n' => part = Part::Plain,
            Part::Text(_) => {}
            Part::Plain => match byte {
                b'#' => part = Part::Comment,
                b'"' | b'\'' => {
                    let quotes = quotes(&bytes[at..]);
                    at += quotes.len() - 1;
                    part = Part::Text(quotes);
                }
                b'[' | b'{' => brackets += 1,
                b']' | b'}' => brackets = brackets.saturating_sub(1),
                b'.' => dots += 1,
                b'\n' | b'=' | b',' => dots = 0,
                _ => {}
            },
        }
        if brackets > DEEPEST || dots > DEEPEST {
            return Some(at);
        }
        at += 1;
    }
    None
}

/// The quotes that a string begins with.
fn quotes(text: &[u8]) -> &'static [u8] {
    let all: [&[u8]; 3] = [b"\"\"\"", b"'''", b"\""];
    all.into_iter().find(|quotes| text.starts_with(quotes)).unwrap_or(b"'")
}

#[cfg(test)]
mod tests {
    use super::*;

    #[test]
    fn only_what_nests_is_counted() {
        let many = "[".repeat(200);
        assert_eq!(too_deep(&format!("a = {many}")), Some(104));
        assert_eq!(too_deep(&("a = 1\n".to_string() + &"b.".repeat(200))), Some(6 + 201));
        assert!(too_deep(&format!("a = [\"\\\"#\", '''\n''', {many}")).is_some());
        for good in [
            format!("# {many} {}\na = 1", ".".repeat(200)),
            format!("a = \"{many}\\\"{many}\" # {many}"),
            format!(
                "a = '{many}\\'\nb = \"\"\"\n\"{many}\\\"\"\" \n\"\"\"\nc = '''{many}\n'{many}'''"
            ),
            "a = [1.5, 2.5]\n".repeat(200),
            "[a.b]\nc.d = { e = [1, 2] }\n".repeat(200),
        ] {
            assert_eq!(too_deep(&good), None, "{good}");
        }
    }
}
