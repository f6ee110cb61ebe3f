//! hem-year loses no file: outputs replace only their own kind, and all are checked before the first is
//! written.
mod common;

use common::{Folder, ENTRY, HEAD, HOUR};
use std::fs::{self, Permissions};
use std::os::unix::fs::{symlink, PermissionsExt};

// ---- what a report replaces ----

#[test]
fn a_report_replaces_only_its_own_kind_of_file() {
    let folder = Folder::with_house_p("kinds", 3);
    folder.run().done();
    folder.write("other.book", &folder.read("p.book")[..HEAD + ENTRY]);
    folder.write("notes.txt", b"# not to be lost\n");
    folder
        .write("plan.svg", b"<svg xmlns=\"http://www.w3.org/2000/svg\" viewBox=\"0 0 9 9\"></svg>");
    folder.call(&["report", "p.book", "--csv", "x.csv", "--svg", "x.svg"]).done();
    let victims = ["other.book", "p.head", "p.year", "notes.txt", "plan.svg"];
    let before = victims.map(|name| folder.read(name));
    for name in victims {
        let words = format!("{name}: exists and is not a table of hem-year; --force replaces it");
        folder.call(&["report", "p.book", "--csv", name]).failed(2, &words);
        let words = format!("{name}: exists and is not a drawing of hem-year; --force replaces it");
        folder.call(&["report", "p.book", "--svg", name]).failed(2, &words);
    }
    folder.call(&["report", "p.book", "--csv", "x.svg"]).failed(2, "is not a table");
    folder.call(&["report", "p.book", "--svg", "x.csv"]).failed(2, "is not a drawing");
    assert_eq!(victims.map(|name| folder.read(name)), before);

    // Its own files, empty ones and what is forced are replaced.
    let (table, drawing) = (folder.read("x.csv"), folder.read("x.svg"));
    folder.write("x.csv", &table[..table.len() / 2]);
    folder.write("x.svg", b"");
    folder.call(&["report", "p.book", "--csv", "x.csv", "--svg", "x.svg"]).done();
    assert_eq!((folder.read("x.csv"), folder.read("x.svg")), (table.clone(), drawing));
    folder.call(&["report", "--force", "p.book", "--csv", "notes.txt"]).done();
    assert_eq!(folder.read("notes.txt"), table);
    let names =
        ["notes.txt", "other.book", "p.book", "p.head", "p.year", "plan.svg", "x.csv", "x.svg"];
    assert_eq!(folder.names(), names);
}

#[test]
fn heads_and_conditions_replace_only_their_own_kind_too() {
    let folder = Folder::with_house_p("bytes", 3);
    folder.run().done();
    let toml = folder.call(&["show", "p.head"]).done();
    let csv = folder.call(&["show", "p.year"]).done();
    folder.write("p.toml", toml.as_bytes());
    folder.write("p.csv", csv.as_bytes());
    folder.write("notes.txt", b"not to be lost");
    let names = ["p.book", "p.csv", "p.head", "p.toml", "p.year", "notes.txt"];
    let before = names.map(|name| folder.read(name));
    for name in ["p.book", "p.csv", "p.year", "notes.txt"] {
        folder
            .call(&["house", "p.toml", name])
            .failed(2, "exists and is not a head; --force replaces");
    }
    for name in ["p.book", "p.head", "p.toml", "notes.txt"] {
        let words = "exists and is not a file of conditions; --force replaces it";
        folder.call(&["hours", "p.csv", name]).failed(2, words);
    }
    folder.call(&["house", "p.toml", "p.toml", "--force"]).failed(2, "is the file that is read");
    folder.call(&["hours", "p.csv", "p.csv", "--force"]).failed(2, "is the file that is read");
    // Their own kind is replaced, here by the same bytes.
    folder.call(&["house", "p.toml", "p.head"]).done();
    folder.call(&["hours", "p.csv", "p.year"]).done();
    assert_eq!(names.map(|name| folder.read(name)), before);
    folder.call(&["house", "p.toml", "notes.txt", "--force"]).done();
    folder.call(&["hours", "p.csv", "p.book", "--force"]).done();
    assert_eq!(folder.read("notes.txt"), folder.read("p.head"));
    assert_eq!(folder.read("p.book"), folder.read("p.year"));
}

#[test]
fn a_report_does_not_write_where_it_reads() {
    let folder = Folder::with_house_p("reads", 3);
    folder.run().done();
    let book = folder.read("p.book");
    symlink("p.book", folder.path("link")).unwrap();
    for force in [&[][..], &["--force"]] {
        let csv = |file: &str| folder.call(&[&["report", "p.book", "--csv", file], force].concat());
        csv("p.book").failed(2, "is the book");
        csv("link").failed(2, "is the book");
        csv(".").failed(2, "is a folder");
        csv("/dev/null").failed(2, "not a regular file");
        csv("none/x").failed(2, "none/x: cannot be written");
        csv("..").failed(2, "is a folder");
        let both = ["report", "p.book", "--csv", "x", "--svg", "./x"];
        folder.call(&[&both, force].concat()).failed(2, "for the table and");
    }
    assert_eq!(folder.read("p.book"), book);
    assert_eq!(folder.names(), ["link", "p.book", "p.head", "p.year"]);
}

#[test]
fn all_outputs_are_checked_before_the_first_is_written() {
    let folder = Folder::with_house_p("first", 3);
    folder.run().done();
    let report =
        |csv: &str, svg: &str| folder.call(&["report", "p.book", "--csv", csv, "--svg", svg]);
    report("x.csv", "none/x.svg").failed(2, "none/x.svg: cannot be written");
    report("none/x.csv", "x.svg").failed(2, "none/x.csv: cannot be written");
    report("x.csv", "p.year").failed(2, "p.year: exists");
    // A book that is refused gives no table.
    folder.write("bad.book", &folder.read("p.book")[..100]);
    folder.call(&["report", "bad.book", "--csv", "x.csv"]).failed(1, "(refusal 1)");
    assert_eq!(folder.names(), ["bad.book", "p.book", "p.head", "p.year"]);
}

// ---- read-only ----

#[test]
fn read_only_files_stay_as_they_are() {
    let folder = Folder::with_house_p("read-only", 3);
    let year = folder.read("p.year");
    folder.write("p.year", &year[..2 * HOUR]);
    folder.run().done();
    folder.write("p.year", &year);
    folder.call(&["report", "p.book", "--csv", "x.csv"]).done();
    let before = ["p.book", "x.csv"].map(|name| folder.read(name));
    for name in ["p.book", "x.csv"] {
        fs::set_permissions(folder.path(name), Permissions::from_mode(0o444)).unwrap();
    }
    folder.run().failed(2, "p.book: cannot be written: it is read-only");
    let words = "x.csv: is read-only; --force replaces it";
    folder.call(&["report", "p.book", "--csv", "x.csv", "--balance"]).failed(2, words);
    assert_eq!(["p.book", "x.csv"].map(|name| folder.read(name)), before);
    folder.call(&["report", "p.book", "--csv", "x.csv", "--balance", "--force"]).done();
    assert_ne!(folder.read("x.csv"), before[1]);
}
