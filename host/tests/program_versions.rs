//! hem-year with entry versions: what a run appends, and what it refuses.
mod common;

use common::hours::varied;
use common::{Answer, Folder, ENTRY, HEAD, HOUR};
use hem_zone::{Book, ENTRY_VERSION_1, ENTRY_VERSION_2};

/// House P and some hours, heated, cooled and neither.
fn folder(name: &str) -> Folder {
    let folder = Folder::with_house_p(name, 1);
    folder.write("p.year", &varied(10, 1.0));
    folder
}

/// A run of the first hours, with these further words.
fn run(folder: &Folder, hours: usize, words: &[&str]) -> Answer {
    folder.write("part.year", &varied(10, 1.0)[..hours * HOUR]);
    folder.call(&[&["run", "p.head", "part.year", "p.book"], words].concat())
}

fn versions(folder: &Folder) -> Vec<u64> {
    let book = Book::take_up(&folder.read("p.book")).unwrap();
    book.entries().map(|entry| entry.version()).collect()
}

/// The book that the wrapper makes of the hours with these versions.
fn made(folder: &Folder, versions: &[u64]) -> Vec<u8> {
    let mut book = Book::begin(&folder.read("p.head")).unwrap();
    for (hour, version) in varied(versions.len(), 1.0).chunks(HOUR).zip(versions) {
        book.append(hour, *version).unwrap();
    }
    book.bytes().to_vec()
}

#[test]
fn a_new_book_has_version_2() {
    let folder = folder("new");
    let said = run(&folder, 10, &[]).done();
    assert!(said.contains("0 hours were held, 10 appended with entry version 2, "), "{said}");
    assert_eq!(versions(&folder), [ENTRY_VERSION_2; 10]);
    assert_eq!(folder.read("p.book"), made(&folder, &[2; 10]));
    assert_ne!(folder.read("p.book"), made(&folder, &[1; 10]));
}

#[test]
fn a_book_keeps_the_version_of_its_last_entry() {
    let folder = folder("kept");
    let said = run(&folder, 3, &["--entry-version", "1"]).done();
    assert!(said.contains("3 appended with entry version 1, "), "{said}");
    run(&folder, 5, &[]).done();
    assert_eq!(versions(&folder), [ENTRY_VERSION_1; 5]);
    let said = run(&folder, 7, &["--entry-version", "2"]).done();
    let words = ": 5 hours were held (5 of version 1), 2 appended with entry version 2, ";
    assert!(said.contains(words), "{said}");
    let said = run(&folder, 10, &[]).done();
    let words =
        ": 7 hours were held (5 of version 1, 2 of version 2), 3 appended with entry version 2, ";
    assert!(said.contains(words), "{said}");
    assert_eq!(folder.read("p.book"), made(&folder, &[1, 1, 1, 1, 1, 2, 2, 2, 2, 2]));
}

#[test]
fn a_version_without_an_hour_to_append_is_no_fault() {
    let folder = folder("unused");
    for (held, named) in [("1", "2"), ("2", "1")] {
        run(&folder, 5, &["--entry-version", held]).done();
        let book = folder.read("p.book");
        let was =
            format!("p.book: 5 hours were held (5 of version {held}), 0 appended, 1,260 bytes\n");
        assert_eq!(run(&folder, 5, &[]).done(), was);
        assert_eq!(run(&folder, 5, &["--entry-version", held]).done(), was);
        let kept =
            format!("the hours held keep their version; for version {named} begin another book\n");
        assert_eq!(run(&folder, 5, &["--entry-version", named]).done(), format!("{was}{kept}"));
        let fewer = "part.year has only 3 hours; the others stay in the book\n";
        let said = run(&folder, 3, &["--entry-version", named]).done();
        assert_eq!(said, format!("{was}{fewer}{kept}"));
        assert_eq!(folder.read("p.book"), book);
        folder.remove("p.book");
    }
}

#[test]
fn a_full_book_has_nothing_to_append() {
    let folder = folder("full");
    let book = made(&folder, &[2; 8784]);
    folder.write("p.book", &book);
    folder.write("p.year", &varied(8784, 1.0));
    for version in ["1", "2"] {
        let words = [&Folder::RUN[..], &["--entry-version", version]].concat();
        let said = folder.call(&words).done();
        let was = ": 8,784 hours were held (8,784 of version 2), 0 appended, ";
        assert!(said.contains(was), "{said}");
        assert_eq!(said.contains("; for version 1 begin another book\n"), version == "1");
        assert_eq!(folder.read("p.book"), book);
    }
}

#[test]
fn a_script_of_two_steps_can_be_run_again() {
    let folder = folder("script");
    let script = || {
        run(&folder, 4, &["--entry-version", "1"]).done()
            + &run(&folder, 10, &["--entry-version", "2"]).done()
    };
    script();
    let book = made(&folder, &[1, 1, 1, 1, 2, 2, 2, 2, 2, 2]);
    assert_eq!(folder.read("p.book"), book);
    let said = script();
    assert_eq!(
        said.matches("10 hours were held (4 of version 1, 6 of version 2), 0 app").count(),
        2
    );
    // The hours of the first step are of the version that it names, not all of the second.
    let kept = "the hours held keep their version; for version 2 begin another book\n";
    assert_eq!((said.matches("begin another book").count(), said.ends_with(kept)), (1, true));
    assert_eq!(folder.read("p.book"), book);
}

#[test]
fn a_book_that_holds_no_hour_is_a_new_one() {
    let folder = folder("empty");
    run(&folder, 3, &["--entry-version", "1"]).done();
    let whole = folder.read("p.book");
    // A part of an hour is not held either.
    for left in [HEAD, HEAD + 100] {
        folder.write("p.book", &whole[..left]);
        run(&folder, 3, &[]).done();
        assert_eq!(versions(&folder), [ENTRY_VERSION_2; 3]);
        folder.write("p.book", &whole[..left]);
        run(&folder, 3, &["--entry-version", "1"]).done();
        assert_eq!(folder.read("p.book"), whole);
    }
}

#[test]
fn a_book_never_goes_back() {
    let folder = folder("back");
    run(&folder, 4, &["--entry-version", "1"]).done();
    run(&folder, 6, &["--entry-version", "2"]).done();
    let mut book = folder.read("p.book");
    // A part of an hour of version 2.
    book.extend([0, 0, 0, 212, 2, 64, 0]);
    folder.write("p.book", &book);
    let back =
        "p.book: --entry-version is 1, but its last hour is of version 2, and a book never goes \
                back (refusal 18); ";
    let words = "its first 4 hours are of version 1: `hem-year cut p.book 4 NEW` keeps them; \
                 the book is left as it is";
    for hours in [7, 10] {
        run(&folder, hours, &["--entry-version", "1"]).failed(1, &format!("{back}{words}\n"));
        assert_eq!(folder.read("p.book"), book);
    }
    // Cut back to its hours of version 1 it takes them again, without being told to.
    for named in [&[][..], &["--entry-version", "1"]] {
        folder.call(&["cut", "p.book", "4", "new.book"]).done();
        folder.call(&[&["run", "p.head", "p.year", "new.book"], named].concat()).done();
        assert_eq!(folder.read("new.book"), made(&folder, &[1; 10]));
    }
    for (versions, words) in [
        (&[1, 2, 2][..], "its first hour is of version 1: `hem-year cut p.book 1 NEW` keeps it; "),
        (&[2, 2], "for version 1 begin another book; "),
    ] {
        folder.write("p.book", &made(&folder, versions));
        let words = format!("{back}{words}the book is left as it is\n");
        run(&folder, 10, &["--entry-version", "1"]).failed(1, &words);
    }
}

#[test]
fn a_version_that_no_hour_has_begins_no_book() {
    let folder = folder("unknown");
    for version in ["0", "4", "257", "18446744073709551615"] {
        let words = format!("hem-year: --entry-version is {version}, not 1, 2 or 3 (refusal 18)\n");
        run(&folder, 2, &["--entry-version", version]).failed(1, &words);
        let check = ["check", "p.head", "p.year", "--entry-version", version];
        folder.call(&check).failed(1, &words);
    }
    run(&folder, 2, &["--entry-version", "18446744073709551616"]).failed(2, "not a whole number");
    run(&folder, 2, &["--entry-version=-1"]).failed(2, "not a whole number");
    assert_eq!(folder.names(), ["p.head", "p.year", "part.year"]);
}

#[test]
fn a_fallen_version_is_told_with_its_hour() {
    let folder = folder("fallen");
    run(&folder, 5, &[]).done();
    let mut bytes = folder.read("p.book");
    bytes[HEAD + 3 * ENTRY + 4] = 1;
    folder.write("p.book", &bytes);
    let words = "p.book: hour 4 (1 Jan 03:00): its version is 1, below that of the entry before it, 2 \
                 (refusal 18); its first 3 hours are good, and `hem-year cut p.book 3 NEW` keeps them";
    folder.call(&["report", "p.book"]).failed(1, words);
    run(&folder, 5, &[]).failed(1, words);
    bytes[HEAD + 3 * ENTRY + 4] = 7;
    folder.write("p.book", &bytes);
    let words = "hour 4 (1 Jan 03:00): its version is 7, not 1, 2 or 3 (refusal 18)";
    folder.call(&["report", "p.book"]).failed(1, words);
}
