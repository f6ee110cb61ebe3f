//! The fields of a CSV text by their places in it, so that some can be replaced and every other byte
//! stays. They are those that the csv crate reads, as hours are read.
use std::ops::Range;

/// A record: its line, as an editor counts, and where its fields stand, their quotes and blanks included.
#[derive(Debug, PartialEq)]
pub struct Record {
    pub line: usize,
    pub fields: Vec<Range<usize>>,
}

/// The records of a text, one after the other. Empty lines and those that begin with `#` are left out.
pub struct Records<'a> {
    text: &'a [u8],
    at: usize,
    /// How far lines have been counted, and their number.
    counted: usize,
    line: usize,
}

impl<'a> Records<'a> {
    pub fn new(text: &'a [u8]) -> Self {
        // A spreadsheet may put a byte order mark in front.
        let at = if text.starts_with(b"\xef\xbb\xbf") { 3 } else { 0 };
        Self { text, at, counted: at, line: 1 }
    }

    fn skip_lines_without_record(&mut self) {
        loop {
            match self.text.get(self.at) {
                Some(b'\r' | b'\n') => self.at += 1,
                Some(b'#') => {
                    let rest = &self.text[self.at..];
                    self.at += rest.iter().position(|&b| b == b'\n').unwrap_or(rest.len());
                }
                _ => return,
            }
        }
    }

    fn count_lines(&mut self) {
        let passed = &self.text[self.counted..self.at];
        self.line += passed.iter().filter(|&&b| b == b'\n').count();
        self.counted = self.at;
    }
}

impl Iterator for Records<'_> {
    type Item = Record;

    fn next(&mut self) -> Option<Record> {
        self.skip_lines_without_record();
        self.text.get(self.at)?;
        self.count_lines();
        let mut fields = vec![];
        loop {
            let begin = self.at;
            self.at = end_of_field(self.text, begin);
            fields.push(begin..self.at);
            match self.text.get(self.at) {
                Some(b',') => self.at += 1,
                _ => return Some(Record { line: self.line, fields }),
            }
        }
    }
}

/// Where a field ends that begins here: at the next comma or end of a line that is not in quotes.
fn end_of_field(text: &[u8], begin: usize) -> usize {
    let mut quoted = text.get(begin) == Some(&b'"');
    let mut at = if quoted { begin + 1 } else { begin };
    while let Some(byte) = text.get(at) {
        match byte {
            b'"' if quoted && text.get(at + 1) == Some(&b'"') => at += 1,
            b'"' if quoted => quoted = false,
            b',' | b'\r' | b'\n' if !quoted => return at,
            _ => {}
        }
        at += 1;
    }
    text.len()
}

/// What a field says: without the quotes and blanks around it.
pub fn content(field: &[u8]) -> Vec<u8> {
    let Some(inner) = field.strip_prefix(b"\"") else { return field.trim_ascii().to_vec() };
    let (mut said, mut quoted, mut at) = (vec![], true, 0);
    while let Some(byte) = inner.get(at) {
        match byte {
            b'"' if quoted && inner.get(at + 1) == Some(&b'"') => {
                said.push(b'"');
                at += 1;
            }
            b'"' if quoted => quoted = false,
            _ => said.push(*byte),
        }
        at += 1;
    }
    said.trim_ascii().to_vec()
}

#[cfg(test)]
mod tests {
    use super::*;

    /// The fields as the csv crate reads them. It takes a comment at the end of the text, without an end of
    /// its line, for a record of one empty field: such records are no hours, and are left out here.
    fn read(text: &[u8]) -> Vec<Vec<Vec<u8>>> {
        let text = text.strip_prefix(b"\xef\xbb\xbf").unwrap_or(text);
        let mut builder = csv::ReaderBuilder::new();
        builder.has_headers(false).flexible(true).comment(Some(b'#'));
        let records = builder.from_reader(text).into_byte_records();
        let fields = records.map(|record| {
            let mut record = record.unwrap();
            record.trim();
            record.iter().map(<[u8]>::to_vec).collect()
        });
        fields.filter(|record: &Vec<_>| has_more(record)).collect()
    }

    fn found(text: &[u8]) -> Vec<Vec<Vec<u8>>> {
        let fields = |r: Record| r.fields.into_iter().map(|f| content(&text[f])).collect();
        Records::new(text).map(fields).filter(|record: &Vec<_>| has_more(record)).collect()
    }

    fn has_more(record: &[Vec<u8>]) -> bool {
        *record != [b""]
    }

    /// Every text of up to five of these letters.
    #[test]
    fn fields_are_those_that_are_read() {
        let letters = b"a,\"\n\r# ";
        let mut texts = vec![vec![]];
        for _ in 0..5 {
            let longer = |text: &Vec<u8>| letters.map(|letter| [&text[..], &[letter]].concat());
            let next: Vec<Vec<u8>> = texts.iter().flat_map(longer).collect();
            for text in &next {
                assert_eq!(found(text), read(text), "{:?}", String::from_utf8_lossy(text));
            }
            texts = next;
        }
        let marked = b"\xef\xbb\xbf\"a\",b\n";
        assert_eq!(found(marked), read(marked));
    }

    #[test]
    fn lines_are_counted_as_an_editor_does() {
        let text = "\u{feff} a,b\n\n# note\nc,d\n\"e\nf\",2\n\n\n# note\n# note\n g ,h\n";
        for text in [text.to_string(), text.replace('\n', "\r\n")] {
            let lines: Vec<usize> = Records::new(text.as_bytes()).map(|r| r.line).collect();
            assert_eq!(lines, [1, 4, 5, 11]);
        }
    }
}
