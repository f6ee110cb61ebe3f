//! The table that a report writes.

/// The names of its columns, and its rows.
pub fn table(text: &str) -> (Vec<&str>, Vec<Vec<&str>>) {
    let mut lines =
        text.lines().filter(|line| !line.starts_with('#')).map(|l| l.split(',').collect());
    (lines.next().unwrap(), lines.collect())
}

/// The cells of a column.
pub fn column<'a>(text: &'a str, name: &str) -> Vec<&'a str> {
    let (names, rows) = table(text);
    let place = names.iter().position(|n| *n == name).unwrap_or_else(|| panic!("{name}"));
    rows.iter().map(|row| row[place]).collect()
}
