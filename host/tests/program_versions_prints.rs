//! Entry versions in a report, in its table, in an hour that is shown and in a check.
mod common;

use common::hours::varied;
use common::table::column;
use common::{Answer, Folder, HOUR};
use hem_zone::Book;

/// House P and some hours, heated, cooled and neither.
fn folder(name: &str) -> Folder {
    let folder = Folder::with_house_p(name, 1);
    folder.write("p.year", &varied(10, 1.0));
    folder
}

/// A run of the first hours, with these further words.
fn run(folder: &Folder, hours: usize, words: &[&str]) -> Answer {
    folder.write("part.year", &varied(10, 1.0)[..hours * HOUR]);
    folder.call(&[&["run", "p.head", "part.year", "p.book"], words].concat())
}

#[test]
fn a_report_counts_the_entries_of_each_version() {
    let folder = folder("counted");
    let line = |entries: &str| {
        let report = folder.call(&["report", "p.book", "--csv", "x.csv", "--balance"]).done();
        assert!(report.contains(&format!("\nEntries    {entries}\n")), "{report}");
    };
    let (one, two) = ("(cooling by frac_convective_heat)", "(cooling by frac_convective_cool)");
    run(&folder, 4, &["--entry-version", "1"]).done();
    line(&format!("4 of version 1 {one}"));
    assert!(folder.text("x.csv").contains("\n# entries: 4 of version 1\n"));
    run(&folder, 10, &["--entry-version", "2"]).done();
    line(&format!("4 of version 1 {one}, 6 of version 2 {two}"));
    let csv = folder.text("x.csv");
    assert!(csv.contains("\n# entries: 4 of version 1, 6 of version 2\n"));
    let held = ["1", "1", "1", "1", "2", "2", "2", "2", "2", "2"];
    assert_eq!(column(&csv, "entry_version"), held);
    folder.remove("p.book");
    run(&folder, 10, &[]).done();
    line(&format!("10 of version 2 {two}"));
}

#[test]
fn the_balance_of_an_hour_is_that_of_its_version() {
    let folder = folder("balance");
    run(&folder, 4, &["--entry-version", "1"]).done();
    run(&folder, 10, &["--entry-version", "2"]).done();
    let book = Book::take_up(&folder.read("p.book")).unwrap();
    assert!(book.entries().any(|e| e.version() == 1 && e.demand().space_cool_demand < 0.0));
    assert!(book.entries().any(|e| e.version() == 2 && e.demand().space_cool_demand < 0.0));
    folder.call(&["report", "p.book", "--csv", "x.csv", "--balance"]).done();
    let csv = folder.text("x.csv");
    let gains = column(&csv, "air_node.heating_or_cooling_system_gains");
    let mut state = book.zone().start_up().unwrap();
    for (entry, cell) in book.entries().zip(gains) {
        let conditions = entry.conditions_bytes();
        let (after, _, balance) = book.zone().hour_step(&state, conditions, entry.rule()).unwrap();
        assert_eq!(cell.parse(), Ok(balance.air_node.heating_or_cooling_system_gains));
        state = after;
    }
}

#[test]
fn an_hour_that_is_shown_has_its_version() {
    let folder = folder("shown");
    run(&folder, 1, &["--entry-version", "1"]).done();
    run(&folder, 2, &["--entry-version", "2"]).done();
    for number in ["1", "2"] {
        let shown = folder.call(&["show", "p.book", "--hour", number]).done();
        assert!(shown.contains(&format!("\n# entry_version = {number}\n")), "{shown}");
    }
}

/// A floor that takes up what version 2 cools, since none of it comes from the air. By the fraction of
/// heating, as version 1 has it, all of it does.
const FLOOR: &str = r#"temp_setpnt_basis = "air"
start_up_limit = 1000
useful_area = 100
volume = 250
tb_heat_trans_coeff = 0
temp_ext_air_init = 20
temp_setpnt_init = 20

[conditions]
delta_t_h = 0.01
temp_ext_air = 20
gains_internal = 0
gains_solar = 0
frac_convective_heat = 1
frac_convective_cool = 0
temp_setpnt_heat = -100
avg_air_supply_temp = 20
rate = 0
temp_ext = 20
i_sol_dir = 0
i_sol_dif = 0
f_sh_dir = 1
f_sh_dif = 1

[element.floor]
kind = "Opaque"
area = 100000
pitch = 180
h_ce = 20
h_re = 0
h_ri = 0.001
solar_absorption_coeff = 0
therm_rad_to_sky = 0
k_pli = [10000000, 10000000, 10000000, 10000000, 10000000]
h_pli = [1, 1, 1, 1]
first_hour = { temp_ext = 20, i_sol_dir = 0, i_sol_dif = 0, f_sh_dir = 1, f_sh_dif = 1 }
"#;

#[test]
fn a_check_is_of_the_version_that_is_given() {
    let folder = Folder::new("checked");
    folder.write("h.toml", FLOOR.as_bytes());
    folder.write("h.csv", b"hour,temp_setpnt_cool\n1,-80\n2,-80\n");
    for named in [&[][..], &["--entry-version", "2"]] {
        let said = folder.call(&[&["check", "h.toml", "h.csv"], named].concat()).done();
        let words = "every hour can be calculated, as entries of version 2\n";
        assert!(said.ends_with(words), "{said}");
    }
    let answer = folder.call(&["check", "h.toml", "h.csv", "--entry-version", "1"]);
    let said = String::from_utf8(answer.0.stdout.clone()).unwrap();
    answer.failed(1, "1 fault");
    assert!(said.starts_with("h.csv: hour 1 (1 Jan 00:00): a node temperature would "), "{said}");
    assert!(said.contains("(refusal 13)"), "{said}");
    let run = ["run", "h.toml", "h.csv", "h.book", "--entry-version", "1"];
    folder.call(&run).failed(1, "(refusal 13); the book holds the 0 hours before it");

    folder.write("warm.csv", b"hour,temp_setpnt_cool\n1,30\n2,30\n");
    let said = folder.call(&["check", "h.toml", "warm.csv", "--entry-version=1"]).done();
    assert!(said.ends_with(", as entries of version 1\n"), "{said}");
}
