//! A TOML text as a tree in which every key and value knows where it stands.
use super::depth::too_deep;
use serde::de::{Deserialize, Deserializer, Error, MapAccess, SeqAccess, Visitor};
use std::fmt;
use toml::Spanned;

/// A key and its value.
pub(crate) type Pair = (Spanned<String>, Spanned<Node>);

/// A value of a TOML text.
#[derive(Debug)]
pub(crate) enum Node {
    /// In the order of the text.
    Table(Vec<Pair>),
    Array(Vec<Spanned<Node>>),
    Float(f64),
    Integer(i64),
    Text(String),
    /// A truth value, which nothing here takes.
    Other,
}

/// The tree of a text, or the place of its first fault (an offset, if there is one) and what it is.
pub(crate) fn tree(text: &str) -> Result<Node, (Option<usize>, String)> {
    if let Some(at) = too_deep(text) {
        return Err((Some(at), "tables or arrays are nested too deeply".into()));
    }
    let mut parser = toml::Deserializer::new(text);
    let root = Node::deserialize(&mut parser).map_err(|error| syntax(text, &error))?;
    match given_twice(&root) {
        Some(key) => Err((Some(key.start()), format!("{} is given twice", key.get_ref()))),
        None => Ok(root),
    }
}

/// The first key that its table has already.
fn given_twice(node: &Node) -> Option<&Spanned<String>> {
    let Node::Table(pairs) = node else { return None };
    pairs.iter().enumerate().find_map(|(place, (key, value))| {
        let twice = pairs[..place].iter().any(|(other, _)| other.get_ref() == key.get_ref());
        twice.then_some(key).or_else(|| given_twice(value.get_ref()))
    })
}

/// Where the text is no TOML, and what the parser says, with the line that it speaks of.
fn syntax(text: &str, error: &toml::de::Error) -> (Option<usize>, String) {
    let said = error.to_string();
    if said.contains("datetime") {
        return (date(text), "a date or time is not a value that a house has".into());
    }
    let said = said.split(" at line ").next().unwrap_or_default();
    let Some((line, column)) = error.line_col() else { return (None, said.into()) };
    let mut lines = text.split_inclusive('\n');
    let before: usize = lines.by_ref().take(line).map(str::len).sum();
    let of_line: String = lines.next().unwrap_or_default().trim().chars().take(60).collect();
    (Some((before + column).min(text.len())), format!("{said}, in {of_line:?}"))
}

/// Where a value looks like a date or time, of which the parser does not tell the place.
fn date(text: &str) -> Option<usize> {
    let looks_like = |value: &[u8]| {
        let digit = value.first().is_some_and(u8::is_ascii_digit);
        digit && (value.get(4) == Some(&b'-') || value.get(2) == Some(&b':'))
    };
    let mut values = text.char_indices().filter(|(_, c)| *c == '=').map(|(at, _)| at + 1);
    values.find(|at| looks_like(text[*at..].trim_start().as_bytes()))
}

impl<'de> Deserialize<'de> for Node {
    fn deserialize<D: Deserializer<'de>>(from: D) -> Result<Self, D::Error> {
        from.deserialize_any(Builder)
    }
}

struct Builder;

impl<'de> Visitor<'de> for Builder {
    type Value = Node;

    fn expecting(&self, f: &mut fmt::Formatter) -> fmt::Result {
        f.write_str("a value")
    }

    fn visit_bool<E: Error>(self, _: bool) -> Result<Node, E> {
        Ok(Node::Other)
    }

    fn visit_i64<E: Error>(self, value: i64) -> Result<Node, E> {
        Ok(Node::Integer(value))
    }

    fn visit_f64<E: Error>(self, value: f64) -> Result<Node, E> {
        Ok(Node::Float(value))
    }

    fn visit_str<E: Error>(self, value: &str) -> Result<Node, E> {
        Ok(Node::Text(value.to_string()))
    }

    fn visit_seq<A: SeqAccess<'de>>(self, mut items: A) -> Result<Node, A::Error> {
        let mut array = vec![];
        while let Some(item) = items.next_element()? {
            array.push(item);
        }
        Ok(Node::Array(array))
    }

    fn visit_map<A: MapAccess<'de>>(self, mut pairs: A) -> Result<Node, A::Error> {
        let mut table = vec![];
        while let Some(pair) = pairs.next_entry()? {
            table.push(pair);
        }
        Ok(Node::Table(table))
    }
}

#[cfg(test)]
mod tests {
    use super::*;

    fn keys(node: &Node) -> Vec<(&str, usize)> {
        match node {
            Node::Table(pairs) => {
                pairs.iter().map(|(key, _)| (key.get_ref().as_str(), key.start())).collect()
            }
            _ => panic!("not a table"),
        }
    }

    #[test]
    fn keys_stay_in_the_order_of_the_text() {
        let text = "z = 1\n[e.b]\nx = 2\ny.q = 3\n[c]\n[e.a]\nk = [1, 2.5]\n";
        let root = tree(text).unwrap();
        assert_eq!(keys(&root), [("z", 0), ("e", 7), ("c", 27)]);
        let Node::Table(pairs) = &root else { unreachable!() };
        assert_eq!(keys(pairs[1].1.get_ref()), [("b", 9), ("a", 33)]);
    }

    #[test]
    fn faults_have_a_place() {
        let (at, text) = tree("a = 1\nb = \nc = 2\n").unwrap_err();
        assert_eq!(at, Some(10));
        assert_eq!(text, "expected a value, found a newline, in \"b =\"");
        assert!(tree("a = 1\nb = 1979-05-27\n").unwrap_err().0 == Some(9));
        assert_eq!(tree("a = 1\na = 2\n").unwrap_err(), (Some(6), "a is given twice".into()));
        assert!(tree("[t]\n[t]\n").unwrap_err().1.contains("redefinition"));
        for deep in ["a = ".to_string() + &"[".repeat(100_000), "a.".repeat(100_000) + "a = 1"] {
            assert!(tree(&deep).unwrap_err().1.contains("too deeply"));
        }
        assert!(tree("").is_ok());
    }
}
