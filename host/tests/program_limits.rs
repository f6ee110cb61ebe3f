//! hem-year with the limits of a plant: what a run appends, what it refuses, and how a book goes on.
mod common;

use common::hours::varied;
use common::{Answer, Folder, ENTRY, ENTRY_3, HEAD, HOUR};
use hem_zone::samples::hour_p;
use hem_zone::{Book, Conditions, Limits, Rule, ENTRY_VERSION_1, ENTRY_VERSION_2};

const BOTH: [&str; 4] = ["--heating-limit", "1500", "--cooling-limit", "250.5"];
const LIMITS: Limits = Limits { heating: 1500.0, cooling: 250.5 };
const IN_WORDS: &str = "heating at most 1,500 W, cooling at most 250.5 W";

/// House P and some hours, heated, cooled and neither.
fn folder(name: &str) -> Folder {
    let folder = Folder::with_house_p(name, 1);
    folder.write("p.year", &varied(10, 1.0));
    folder
}

/// A run of the first hours, with these further words.
fn run(folder: &Folder, hours: usize, words: &[&str]) -> Answer {
    folder.write("part.year", &varied(10, 1.0)[..hours * HOUR]);
    folder.call(&[&["run", "p.head", "part.year", "p.book"], words].concat())
}

/// The book that the wrapper makes of the hours by these rules.
fn made(folder: &Folder, rules: &[Rule]) -> Vec<u8> {
    let mut book = Book::begin(&folder.read("p.head")).unwrap();
    for (hour, rule) in varied(rules.len(), 1.0).chunks(HOUR).zip(rules) {
        book.append(hour, *rule).unwrap();
    }
    book.bytes().to_vec()
}

/// So many hours by each rule.
fn rules(parts: &[(usize, Rule)]) -> Vec<Rule> {
    parts.iter().flat_map(|(number, rule)| vec![*rule; *number]).collect()
}

#[test]
fn limits_mean_version_3() {
    let folder = folder("limited");
    let said = run(&folder, 10, &BOTH).done();
    let words = format!(
        ": 0 hours were held, 10 appended with entry version 3 ({IN_WORDS}), 2,500 bytes\n"
    );
    assert!(said.ends_with(&words), "{said}");
    let book = made(&folder, &rules(&[(10, LIMITS.into())]));
    assert_eq!(folder.read("p.book"), book);
    assert_ne!(
        folder.read("p.book"),
        made(&folder, &rules(&[(10, Limits::of_heating(1e7).into())]))
    );
    // The version may be named beside them, and the words may stand in any form.
    for words in [
        &["--entry-version", "3", "--cooling-limit=2.505e2", "--heating-limit=1500.0"][..],
        &["--heating-limit=+1500", "--cooling-limit", "250.50"],
    ] {
        folder.remove("p.book");
        run(&folder, 10, words).done();
        assert_eq!(folder.read("p.book"), book);
    }
}

#[test]
fn a_limit_that_is_not_given_is_the_greatest() {
    let folder = folder("one");
    for (word, limits, told) in [
        (
            "--heating-limit=1500",
            Limits::of_heating(1500.0),
            "1,500 W, cooling at most 10,000,000 W",
        ),
        ("--cooling-limit=0", Limits::of_cooling(0.0), "10,000,000 W, cooling at most 0 W"),
    ] {
        let said = run(&folder, 10, &[word]).done();
        assert!(said.contains(&format!("version 3 (heating at most {told}), ")), "{said}");
        assert_eq!(folder.read("p.book"), made(&folder, &rules(&[(10, limits.into())])));
        folder.remove("p.book");
    }
}

#[test]
fn a_book_goes_on_with_the_limits_of_its_last_hour() {
    let folder = folder("on");
    run(&folder, 4, &BOTH).done();
    let said = run(&folder, 7, &[]).done();
    let words = format!(
        "p.book: 4 hours were held (4 of version 3), 3 appended with entry version 3 (the limits of the \
         hour before: {IN_WORDS}), 1,804 bytes\n"
    );
    assert_eq!(said, words);
    // The same limits, named again.
    let said = run(&folder, 10, &BOTH).done();
    let words = format!(
        "p.book: 7 hours were held (7 of version 3), 3 appended with entry version 3 ({IN_WORDS}), 2,500 bytes\n"
    );
    assert_eq!(said, words);
    assert_eq!(folder.read("p.book"), made(&folder, &rules(&[(10, LIMITS.into())])));
    for words in [&[][..], &BOTH] {
        let said = run(&folder, 10, words).done();
        assert_eq!(said, "p.book: 10 hours were held (10 of version 3), 0 appended, 2,500 bytes\n");
    }
}

const KEPT: &str =
    "the hours held keep their version and limits; for one plant in all hours begin another book\n";

#[test]
fn hours_that_are_held_keep_their_limits() {
    let folder = folder("other");
    run(&folder, 4, &BOTH).done();
    let other = Limits::of_heating(900.0);
    let said = run(&folder, 10, &["--heating-limit=900"]).done();
    assert!(said.ends_with(&format!(" bytes\n{KEPT}")), "{said}");
    let book = made(&folder, &rules(&[(4, LIMITS.into()), (6, other.into())]));
    assert_eq!(folder.read("p.book"), book);
    // Without an hour to append it is said too, of each hour that is held: some differ from each rule.
    for words in [&["--heating-limit=900"][..], &BOTH, &["--entry-version=2"]] {
        let said = run(&folder, 10, words).done();
        assert!(said.ends_with(&format!(", 0 appended, 2,500 bytes\n{KEPT}")), "{said}");
        assert_eq!(folder.read("p.book"), book);
    }
    // The hours that are given are those of these limits, and none is named.
    for (hours, words) in [(4, &BOTH[..]), (10, &[])] {
        let said = run(&folder, hours, words).done();
        assert!(!said.contains("begin another book"), "{said}");
    }
}

#[test]
fn a_run_goes_by_all_hours_that_are_held() {
    let folder = folder("all");
    run(&folder, 2, &BOTH).done();
    run(&folder, 4, &["--heating-limit=900"]).done();
    // The last hour is of the rule that is named, or that goes on; the first is not.
    for (hours, words) in [(6, &["--heating-limit=900"][..]), (8, &[])] {
        let said = run(&folder, hours, words).done();
        assert!(said.contains(", 2 appended with entry version 3 ("), "{said}");
        assert!(said.ends_with(KEPT), "{said}");
    }
    // 0 and -0 are one plant.
    folder.remove("p.book");
    run(&folder, 4, &["--heating-limit=0"]).done();
    let said = run(&folder, 6, &["--heating-limit=-0"]).done();
    assert!(!said.contains("begin another book"), "{said}");
}

#[test]
fn a_book_rises_through_three_versions_and_never_goes_back() {
    let folder = folder("three");
    run(&folder, 3, &["--entry-version", "1"]).done();
    run(&folder, 5, &["--entry-version", "2"]).done();
    let said = run(&folder, 10, &BOTH).done();
    let words =
        "5 hours were held (3 of version 1, 2 of version 2), 5 appended with entry version 3 (";
    assert!(said.contains(words) && said.ends_with(KEPT), "{said}");
    let parts = [(3, ENTRY_VERSION_1.into()), (2, ENTRY_VERSION_2.into()), (5, LIMITS.into())];
    let whole = made(&folder, &rules(&parts));
    assert_eq!(folder.read("p.book"), whole);
    folder.call(&["cut", "p.book", "8", "p.book.8"]).done();
    folder.write("p.book", &folder.read("p.book.8"));
    let back = "its last hour is of version 3, and a book never goes back (refusal 18); its first ";
    let ways = [("1", "3 hours are of version 1: "), ("2", "5 hours are of version 1 or 2: ")];
    for (version, way) in ways {
        let words = format!("--entry-version is {version}, but {back}{way}`hem-year cut p.book ");
        run(&folder, 10, &["--entry-version", version]).failed(1, &words);
    }
    // Cut back to hours of each version, it goes on as its last hour is, and to the same book by name.
    for (kept, rest) in
        [(2, ENTRY_VERSION_1.into()), (4, ENTRY_VERSION_2.into()), (6, LIMITS.into())]
    {
        folder.write("p.book", &whole);
        folder.call(&["cut", "p.book", &kept.to_string(), "new.book"]).done();
        let starts = folder.read("new.book");
        assert!(whole.starts_with(&starts));
        folder.call(&["run", "p.head", "p.year", "new.book"]).done();
        let all = [&rules(&parts)[..kept], &rules(&[(10 - kept, rest)])].concat();
        assert_eq!(folder.read("new.book"), made(&folder, &all));
    }
    folder.write("p.book", &whole);
    folder
        .call(&["cut", "p.book", "11", "new.book"])
        .failed(2, "p.book: holds 10 hours, which is fewer");
}

#[test]
fn a_cut_at_any_byte_goes_on_to_the_same_book() {
    let folder = folder("cuts");
    run(&folder, 1, &["--entry-version", "2"]).done();
    run(&folder, 3, &BOTH).done();
    let whole = folder.read("p.book");
    let starts = [HEAD + ENTRY, HEAD + ENTRY + ENTRY_3, HEAD + ENTRY + 2 * ENTRY_3];
    assert_eq!(whole.len(), starts[2]);
    for cut in starts[0]..whole.len() {
        folder.write("p.book", &whole[..cut]);
        let said = run(&folder, 3, &BOTH).done();
        let held = 1 + usize::from(cut >= starts[1]);
        assert!(said.contains(&format!(", {} appended with entry version 3 ", 3 - held)), "{said}");
        assert_eq!(said.contains(" dropped\n"), !starts.contains(&cut));
        assert_eq!(folder.read("p.book"), whole);
    }
}

// ---- words that are refused ----

#[test]
fn a_limit_out_of_range_touches_no_book() {
    let folder = folder("range");
    for (word, told) in [
        ("--heating-limit=-1", "--heating-limit is -1 W"),
        ("--heating-limit -1", "--heating-limit is -1 W"),
        ("--heating-limit=10000000.1", "--heating-limit is 10000000.1 W"),
        ("--cooling-limit=1e8", "--cooling-limit is 100,000,000 W"),
        ("--cooling-limit -0.001", "--cooling-limit is -0.001 W"),
    ] {
        let words: Vec<&str> = word.split(' ').collect();
        let told = format!("hem-year: {told}, out of its range 0 to 10,000,000 W (refusal 19)\n");
        run(&folder, 2, &words).failed(1, &told);
        folder.call(&[&["check", "p.head", "p.year"], &words[..]].concat()).failed(1, &told);
    }
    assert_eq!(folder.names(), ["p.head", "p.year", "part.year"]);
    for word in ["--heating-limit=0", "--heating-limit=-0", "--cooling-limit=1e7"] {
        run(&folder, 2, &[word]).done();
        folder.remove("p.book");
    }
}

#[test]
fn limits_and_versions_that_do_not_fit_are_usage_errors() {
    let folder = folder("usage");
    for (words, told) in [
        (
            &["--entry-version=3"][..],
            "--entry-version 3 needs --heating-limit, --cooling-limit or both; see",
        ),
        (
            &["--entry-version=2", "--heating-limit=5"],
            "--heating-limit means entry version 3, but --entry-version is 2; see",
        ),
        (
            &["--cooling-limit=5", "--entry-version=1"],
            "--cooling-limit means entry version 3, but --entry-version is 1; see",
        ),
        (&["--heating-limit=nan"], "--heating-limit is \"nan\", which is not a number; see"),
        (&["--heating-limit=inf"], "--heating-limit is \"inf\", which is not a number; see"),
        (
            &["--cooling-limit=1e400"],
            "--cooling-limit is \"1e400\", beyond every number that can be held; see",
        ),
        (
            &["--cooling-limit", "-1e400"],
            "--cooling-limit is \"-1e400\", beyond every number that can be held; see",
        ),
        (&["--cooling-limit=6kW"], "--cooling-limit is \"6kW\", which is not a number; see"),
        (&["--cooling-limit=6,000"], "--cooling-limit is \"6,000\", which is not a number; see"),
        (&["--heating-limit"], "--heating-limit needs a number; see"),
        (&["--heating-limit", "--cooling-limit"], "--heating-limit needs a number; see"),
        (&["--heating-limit", "-x"], "--heating-limit needs a number; see"),
        (&["--heating-limit="], "the word for --heating-limit is empty; see"),
        (&["--heating-limit=5", "--heating-limit=5"], "--heating-limit is given twice; see"),
    ] {
        run(&folder, 2, words).failed(2, &format!("hem-year: run: {told} `hem-year help run`"));
        let check = [&["check", "p.head", "p.year"], words].concat();
        folder.call(&check).failed(2, &format!("hem-year: check: {told} `hem-year help check`"));
    }
    // A version that no hour has comes first.
    let words = "--entry-version is 4, not 1, 2 or 3 (refusal 18)";
    run(&folder, 2, &["--entry-version=4", "--heating-limit=5"]).failed(1, words);
    assert_eq!(folder.names(), ["p.head", "p.year", "part.year"]);
}

#[test]
fn a_check_is_of_the_limits_that_are_given() {
    let folder = folder("check");
    let said = folder.call(&[&["check", "p.head", "p.year"][..], &BOTH].concat()).done();
    let words = format!("every hour can be calculated, as entries of version 3 ({IN_WORDS})\n");
    assert!(said.ends_with(&words), "{said}");
    // All the cold of this house comes through one pane. To reach -80 °C in four seconds it would have to be
    // colder than the engine goes, in version 2; a plant of 1 kW does what it can.
    let hour = Conditions { delta_t_h: 0.001, frac_convective_cool: 0.0, ..hour_p(-100.0, -80.0) };
    folder.write("p.year", &hour.to_bytes());
    let answer = folder.call(&["check", "p.head", "p.year"]);
    let said = String::from_utf8(answer.0.stdout.clone()).unwrap();
    answer.failed(1, "1 fault");
    assert!(said.contains("p.year: hour 1 (1 Jan 00:00): a node temperature would "), "{said}");
    folder.call(&["check", "p.head", "p.year", "--cooling-limit=1000"]).done();
    folder.call(&["run", "p.head", "p.year", "p.book", "--cooling-limit=1000"]).done();
}
