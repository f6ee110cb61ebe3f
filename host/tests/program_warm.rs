//! hem-year warm: when it got warm, held against the book itself.
mod common;

use common::hours::{varied, with_year};
use common::plant::{date, go_on, with_limits, BOTH};
use common::warm::Temperatures;
use common::{Folder, ENTRY, HEAD, HOUR};
use hem_zone::samples::hour_p;
use hem_zone::{Book, Conditions, ElementHour};

/// The line of an answer.
#[track_caller]
fn line<'a>(said: &'a str, beginning: &str) -> &'a str {
    let found = said.lines().find_map(|line| line.strip_prefix(beginning));
    found.unwrap_or_else(|| panic!("{beginning} in {said}"))
}

/// The temperatures that a line tells, each with what it must be and the value that it must tell it from.
#[track_caller]
fn must_tell(line: &str, value: f64, temperatures: &[f64]) {
    let words: Vec<&str> = line.split(' ').collect();
    let told = words.windows(2).filter(|pair| pair[1].starts_with("°C"));
    let told: Vec<f64> = told.map(|pair| pair[0].parse().unwrap()).collect();
    assert_eq!(told.len(), temperatures.len(), "{line}");
    for (told, exact) in told.iter().zip(temperatures) {
        assert!((told - exact).abs() <= 0.05, "{line}: {exact}");
        assert_eq!(told.partial_cmp(&value), exact.partial_cmp(&value), "{line}: {exact}");
    }
}

/// What is said of an hour that begins in January, an hour long like all before it.
fn name(place: usize) -> String {
    format!("hour {} ({})", place + 1, date(place, 1.0))
}

/// Every question about a book of hours of an hour's length.
#[track_caller]
fn must_answer(folder: &Folder, book: &Book, value: f64, upper: f64) {
    let all = Temperatures::of(book);
    let (value_word, upper_word) = (value.to_string(), upper.to_string());
    let words = ["warm", "p.book", "--above", &value_word, "--within", &value_word, &upper_word];
    let said = folder.call(&[&words[..], &["--nearest", &value_word]].concat()).done();
    let hours = book.hours();
    assert!(
        said.starts_with(&format!("p.book: operative temperature of {hours} hours\n")),
        "{said}"
    );
    assert_eq!(said.lines().count(), 4, "{said}");

    let above = line(&said, &format!("Above {value} °C: "));
    match all.first_above(value) {
        Some(hour) => {
            let words = format!("first in {}, from ", name(hour));
            assert!(above.starts_with(&words) && above.ends_with(" at its end"), "{said}");
            must_tell(above, value, &[all.before(hour), all.hours[hour]]);
        }
        None => {
            let words = "no hour goes from at or below it to above it; they end at ";
            assert!(above.starts_with(words), "{said}");
            let extremes =
                [f64::min, f64::max].map(|f| all.hours.iter().copied().reduce(f).unwrap());
            must_tell(above, value, &extremes);
        }
    }
    let within = line(&said, &format!("Within {value} to {upper} °C: "));
    let number = match all.within(value, upper) {
        0 => "none".into(),
        number => number.to_string(),
    };
    assert_eq!(within, format!("{number} of {hours} hours"));
    let nearest = line(&said, &format!("Nearest to {value} °C: "));
    let hour = all.nearest(value).unwrap();
    assert!(nearest.starts_with(&format!("{}, ", name(hour))), "{said}");
    must_tell(nearest, value, &[all.hours[hour]]);
}

#[test]
fn each_question_is_answered_with_hour_date_and_temperature() {
    let (folder, book) = with_year("answered", &varied(200, 1.0));
    let all = Temperatures::of(&book);
    for value in [-300.0, 0.0, 18.5, 19.0, 20.0, 20.25, 21.0, 22.0, 77.0, 400.0, 999999.5] {
        must_answer(&folder, &book, value, value + 0.5);
    }
    // At, just above and just below the temperature of an hour.
    for exact in [0, 7, 63, 199].map(|hour| all.hours[hour]) {
        for value in [exact, exact.next_up(), exact.next_down()] {
            must_answer(&folder, &book, value, exact.next_up());
        }
    }
    assert!(all.first_above(21.0).is_some() && all.first_above(400.0).is_none());
}

#[test]
fn one_question_has_one_answer_and_all_come_in_one_order() {
    let (folder, _) = with_year("order", &varied(50, 1.0));
    let ask = |words: &[&str]| folder.call(&[&["warm"], words].concat()).done();
    let (above, within, nearest) =
        (["--above", "20"], ["--within", "19", "22"], ["--nearest", "21"]);
    let alone = [&above[..], &within, &nearest].map(|words| {
        let said = ask(&[words, &["p.book"]].concat());
        let lines: Vec<String> = said.lines().map(String::from).collect();
        assert_eq!(
            (lines.len(), lines[0].as_str()),
            (2, "p.book: operative temperature of 50 hours")
        );
        lines[1].clone()
    });
    let both = |words: &[&str]| ask(words).lines().skip(1).map(String::from).collect::<Vec<_>>();
    let words = ["--nearest=21", "p.book", "--within", "19", "22", "--above=20"];
    assert_eq!(both(&words), alone);
    assert_eq!(both(&["--within=19", "22", "--above", "20", "p.book"]), alone[..2]);
}

#[test]
fn numbers_below_0_are_numbers() {
    // A house without heating in the frost, then in a mild week.
    let hour = |temp: f64| {
        let plain = hour_p(-273.15, 24.0);
        let element = ElementHour { temp_ext: temp, ..plain.elements[0] };
        let air = Conditions { temp_ext_air: temp, avg_air_supply_temp: temp, ..plain };
        Conditions { elements: vec![element], ..air }
    };
    let year: Vec<u8> =
        (0..60).flat_map(|i| hour(if i < 40 { -15.0 } else { 8.0 }).to_bytes()).collect();
    let (folder, book) = with_year("frost", &year);
    let all = Temperatures::of(&book);
    assert!(all.hours[39] < -6.0 && all.hours[59] > 1.0, "{:?}", all.hours);
    for value in [-5.0, -0.5, -0.0, -5.25, -1e6] {
        must_answer(&folder, &book, value, 0.0);
    }
    let hour = all.first_above(-5.0).unwrap();
    let said = folder.call(&["warm", "p.book", "--above", "-5"]).done();
    assert!(said.contains(&format!("\nAbove -5 °C: first in {}, from -", name(hour))), "{said}");
    for words in [["--above", "-.5"], ["--above=-.5", "--"], ["--above", "-5e-1"]] {
        let said = folder.call(&[&["warm"], &words[..], &["p.book"]].concat()).done();
        assert!(said.contains("\nAbove -0.5 °C: first in hour "), "{said}");
    }
    let said = folder.call(&["warm", "p.book", "--within", "-6", "-2"]).done();
    let count = all.within(-6.0, -2.0);
    assert!(count > 0, "{:?}", all.hours);
    assert!(said.ends_with(&format!("\nWithin -6 to -2 °C: {count} of 60 hours\n")), "{said}");
}

// ---- what is refused ----

#[test]
fn values_that_are_refused() {
    let (folder, _) = with_year("values", &varied(5, 1.0));
    folder.write("empty.book", &folder.read("p.head"));
    let range = "out of its range -1,000,000 to 1,000,000 (refusal 20)\n";
    for book in ["p.book", "empty.book"] {
        for (words, sentence) in [
            (&["--above", "1e7"][..], format!("--above: value is 10,000,000, {range}")),
            (&["--above", "-1000001"], format!("--above: value is -1,000,001, {range}")),
            (&["--nearest=1000000.5"], format!("--nearest: value is 1000000.5, {range}")),
            (&["--within", "-2e6", "20"], format!("--within: lower is -2,000,000, {range}")),
            (&["--within", "20", "1e300"], format!("--within: upper is 1e300, {range}")),
            (
                &["--within", "26", "20.5"],
                "--within: the band's lower end 26 °C is above its upper end 20.5 °C (refusal 20)\n".into(),
            ),
            // A good question beside it is not answered either.
            (&["--above", "20", "--nearest", "2e6"], format!("--nearest: value is 2,000,000, {range}")),
        ] {
            let answer = folder.call(&[&["warm", book], words].concat());
            assert!(answer.0.stdout.is_empty(), "{words:?}");
            answer.failed(1, &format!("hem-year: {sentence}"));
        }
        for (words, sentence) in [
            (&["--above", "NaN"][..], "--above is \"NaN\", which is not a number"),
            (&["--above", "inf"], "--above is \"inf\", which is not a number"),
            (&["--nearest=-inf"], "--nearest is \"-inf\", which is not a number"),
            (
                &["--nearest", "1e999"],
                "--nearest is \"1e999\", beyond every number that can be held",
            ),
            (&["--within", "20", "warm"], "--within is \"warm\", which is not a number"),
            (&["--within", "NaN", "20"], "--within is \"NaN\", which is not a number"),
            (&["--above", "20,5"], "--above is \"20,5\", which is not a number"),
        ] {
            let sentence = format!("hem-year: warm: {sentence}; see `hem-year help warm`\n");
            folder.call(&[&["warm", book], words].concat()).failed(2, &sentence);
        }
    }
}

#[test]
fn a_damaged_book_is_refused_before_any_value() {
    let (folder, _) = with_year("damaged", &varied(5, 1.0));
    let mut bytes = folder.read("p.book");
    bytes[HEAD + 3 * ENTRY + 160] ^= 1;
    folder.write("p.book", &bytes);
    let words = "hem-year: p.book: hour 4 (1 Jan 03:00): its stored heating is not what the hour gives \
                 (refusal 18); its first 3 hours are good, and `hem-year cut p.book 3 NEW` keeps them; the \
                 file is left as it is\n";
    for question in [&["--above", "20"][..], &["--within", "30", "20"], &["--nearest", "1e7"]] {
        let answer = folder.call(&[&["warm", "p.book"], question].concat());
        assert!(answer.0.stdout.is_empty());
        answer.failed(1, words);
    }
    assert!(folder.read("p.book") == bytes);
    folder.write("p.book", &bytes[..100]);
    let words = "p.book: the head ends early: 96 bytes of 176 are there (refusal 1)";
    folder.call(&["warm", "p.book", "--above", "20"]).failed(1, words);
    folder.call(&["warm", "none.book", "--above", "20"]).failed(2, "none.book: cannot be read: ");
}

// ---- books of every kind ----

#[test]
fn an_unfinished_hour_is_not_counted() {
    let (folder, book) = with_year("unfinished", &varied(10, 1.0));
    let whole = book.bytes().to_vec();
    for (rest, told) in [(1, "byte is"), (4, "4 bytes are"), (215, "215 bytes are")] {
        folder.write("p.book", &whole[..HEAD + 7 * ENTRY + rest]);
        let questions = ["--above", "20", "--within", "-1e6", "1e6", "--nearest", "22"];
        let said = folder.call(&[&["warm", "p.book"], &questions[..]].concat()).done();
        folder.write("p.book", &whole[..HEAD + 7 * ENTRY]);
        let without = folder.call(&[&["warm", "p.book"], &questions[..]].concat()).done();
        assert!(
            without.ends_with(" at its end\n") && without.contains(": 7 of 7 hours\n"),
            "{without}"
        );
        let note = format!("The last {told} an unfinished hour, which is not counted.\n");
        let with = without.replacen('\n', &format!("\n{note}"), 1);
        assert_eq!(said, with);
    }
}

#[test]
fn a_book_of_no_hours() {
    let (folder, _) = with_year("empty", &varied(1, 1.0));
    folder.write("p.book", &folder.read("p.head"));
    let questions = ["--above", "-5", "--within", "0", "100", "--nearest", "22"];
    let said = folder.call(&[&["warm", "p.book"], &questions[..]].concat()).done();
    let lines = "p.book: no hours held\n\
                 Above -5 °C: no hour, since none is held\n\
                 Within 0 to 100 °C: no hour, since none is held\n\
                 Nearest to 22 °C: no hour, since none is held\n";
    assert_eq!(said, lines);
}

#[test]
fn a_book_of_three_versions() {
    let year = varied(60, 1.0);
    let (folder, _) = with_limits("versions", &year[..20 * HOUR], &["--entry-version=1"]);
    go_on(&folder, &year[..40 * HOUR], &["--entry-version=2"]);
    go_on(&folder, &year, &BOTH);
    let book = Book::take_up(&folder.read("p.book")).unwrap();
    let all = Temperatures::of(&book);
    let lasts: Vec<u64> = [0, 20, 40].map(|hour| book.entry(hour).unwrap().version()).to_vec();
    assert_eq!(lasts, [1, 2, 3]);
    for hour in 0..60 {
        must_answer(&folder, &book, all.hours[hour], all.hours[hour] + 0.5);
    }
}

#[test]
fn hours_of_another_length_are_steps() {
    let (folder, book) = with_year("steps", &varied(40, 0.25));
    let all = Temperatures::of(&book);
    let said = folder.call(&["warm", "p.book", "--within", "0", "20", "--nearest", "19"]).done();
    assert!(said.starts_with("p.book: operative temperature of 40 steps\n"), "{said}");
    let words = format!("\nWithin 0 to 20 °C: {} of 40 steps\n", all.within(0.0, 20.0));
    assert!(said.contains(&words), "{said}");
    let hour = all.nearest(19.0).unwrap();
    let words = format!("\nNearest to 19 °C: hour {} ({}), ", hour + 1, date(hour, 0.25));
    assert!(said.contains(&words), "{said}");
}
