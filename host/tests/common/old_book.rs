//! Books of House P as they were before fixed rates were retired.
#![allow(dead_code)] // Each file of tests uses a part of this.
#[path = "fixed_rate.rs"]
pub mod fixed_rate;

use crate::common::hours::varied;
use crate::common::plant::with_limits;
use crate::common::Folder;
use fixed_rate::{with_a_twin, with_fixed_rates};
use hem_zone::Book;
use sha2::{Digest, Sha256};

pub fn book_of(folder: &Folder) -> Book {
    Book::take_up(&folder.read("p.book")).unwrap()
}

/// The book of House P in a folder as it was before fixed rates were retired; gives what it is today.
pub fn make_old(folder: &Folder) -> Vec<u8> {
    let book = book_of(folder);
    folder.write("p.book", &with_fixed_rates(&book, with_a_twin(&book)));
    book.bytes().to_vec()
}

/// The same of so many hours, by a run with these words. Of four hours three have a fixed rate.
pub fn old(name: &str, hours: usize, words: &[&str]) -> (Folder, Vec<u8>) {
    let (folder, _) = with_limits(name, &varied(hours, 1.0), words);
    let today = make_old(&folder);
    (folder, today)
}

pub const CONVERT: [&str; 3] = ["convert", "p.book", "new.book"];

pub fn fingerprint(bytes: &[u8]) -> String {
    let digits: String = Sha256::digest(bytes).iter().map(|byte| format!("{byte:02x}")).collect();
    format!("SHA-256 of book        {digits}\n")
}
