//! Fingerprints, by which two prints can be told to be of one book. They are those that `sha256sum`
//! gives for the files, as long as the book holds all hours and no unfinished one.
use hem_zone::Book;
use sha2::{Digest, Sha256};

/// SHA-256 of head, conditions and book, in hexadecimal digits.
pub struct Fingerprints {
    pub head: String,
    pub conditions: String,
    pub book: String,
}

impl Fingerprints {
    pub fn of(book: &Book) -> Self {
        let mut conditions = Sha256::new();
        book.entries().for_each(|entry| conditions.update(entry.conditions_bytes()));
        Self {
            head: of(book.zone().head()),
            conditions: digits(&conditions.finalize()),
            book: of(book.bytes()),
        }
    }

    /// Each with its name.
    pub fn named(&self) -> [(&'static str, &str); 3] {
        [("head", &self.head), ("conditions", &self.conditions), ("book", &self.book)]
    }
}

/// SHA-256 of a file's bytes, in hexadecimal digits.
pub fn of(bytes: &[u8]) -> String {
    digits(&Sha256::digest(bytes))
}

fn digits(hash: &[u8]) -> String {
    hash.iter().map(|byte| format!("{byte:02x}")).collect()
}

#[cfg(test)]
mod tests {
    use super::*;

    #[test]
    fn the_fingerprint_of_nothing() {
        let empty = "e3b0c44298fc1c149afbf4c8996fb92427ae41e4649b934ca495991b7852b855";
        assert_eq!(of(b""), empty);
    }
}
