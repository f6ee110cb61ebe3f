//! The lines of a CSV text, each with its number.
use csv::{ByteRecord, Reader, ReaderBuilder};

/// Reads records one after the other. Empty lines and those that begin with `#` are left out.
pub(crate) struct CsvLines<'a> {
    bytes: &'a [u8],
    reader: Reader<&'a [u8]>,
    record: ByteRecord,
    /// How far lines have been counted, and their number.
    counted: usize,
    line: usize,
}

impl<'a> CsvLines<'a> {
    pub(crate) fn new(text: &'a [u8]) -> Self {
        // A spreadsheet may put a byte order mark in front.
        let bytes = text.strip_prefix(b"\xef\xbb\xbf").unwrap_or(text);
        let mut builder = ReaderBuilder::new();
        builder.has_headers(false).flexible(true).comment(Some(b'#'));
        let reader = builder.from_reader(bytes);
        Self { bytes, reader, record: ByteRecord::new(), counted: 0, line: 1 }
    }

    /// The next record with the number of its line. Bytes in memory cannot fail to be read, and records
    /// of any length are taken, so that an end is the only other answer.
    pub(crate) fn next(&mut self) -> Option<(usize, &ByteRecord)> {
        let from = self.reader.position().byte() as usize;
        if !matches!(self.reader.read_byte_record(&mut self.record), Ok(true)) {
            return None;
        }
        self.record.trim();
        let begin = self.skipped(from);
        let passed = &self.bytes[self.counted..begin];
        self.line += passed.iter().filter(|&&b| b == b'\n').count();
        self.counted = begin;
        Some((self.line, &self.record))
    }

    /// Where the record begins, after the end of the line before it, empty lines and comments: the
    /// reader takes them for a part of the record.
    fn skipped(&self, from: usize) -> usize {
        let mut at = from;
        loop {
            match self.bytes.get(at) {
                Some(b'\r' | b'\n') => at += 1,
                Some(b'#') => {
                    let rest = &self.bytes[at..];
                    at += rest.iter().position(|&b| b == b'\n').unwrap_or(rest.len());
                }
                _ => return at,
            }
        }
    }
}

#[cfg(test)]
mod tests {
    use super::*;

    fn lines(text: &str) -> Vec<(usize, String)> {
        let mut lines = CsvLines::new(text.as_bytes());
        let mut all = vec![];
        while let Some((line, record)) = lines.next() {
            let first = record.get(0).unwrap();
            all.push((line, String::from_utf8(first.to_vec()).unwrap()));
        }
        all
    }

    #[test]
    fn lines_are_counted_as_an_editor_does() {
        let text = "\u{feff} a,b\n\n# note\nc,d\n\"e\nf\",2\n\n\n# note\n# note\n g ,h\n";
        let expected = [(1, "a"), (4, "c"), (5, "e\nf"), (11, "g")];
        assert_eq!(lines(text), expected.map(|(line, text)| (line, text.to_string())));
        let dos = lines(&text.replace('\n', "\r\n"));
        assert_eq!(dos.iter().map(|(line, _)| *line).collect::<Vec<_>>(), [1, 4, 5, 11]);
        assert_eq!(lines(""), []);
        assert_eq!(lines("# only\n"), []);
    }
}
