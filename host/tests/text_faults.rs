//! What is said of texts that are wrong: file, line, name, value and range.
mod common;
#[path = "common/small.rs"]
mod small;

use common::{Answer, Folder};
use hem_zone::text::*;
use hem_zone::{Conditions, Head};
use small::{edited, plan, HOURS, HOUSE};

fn check(folder: &Folder, house: &str, hours: &str) -> Answer {
    folder.write("h.toml", house.as_bytes());
    folder.write("h.csv", hours.as_bytes());
    folder.call(&["check", "h.toml", "h.csv"])
}

/// The faults of a check, with exit status 1 and their number at the end.
#[track_caller]
fn faults(answer: Answer) -> Vec<String> {
    let (status, errors) = (answer.0.status.code(), answer.errors());
    let text = String::from_utf8(answer.0.stdout).unwrap();
    let faults: Vec<String> = text.lines().map(String::from).collect();
    assert_eq!(status, Some(1), "{text}{errors}");
    let number = match faults.len() {
        1 => "hem-year: 1 fault".to_string(),
        n => format!("hem-year: {n} faults"),
    };
    assert!(errors.starts_with(&number), "{errors}{text}");
    faults
}

#[test]
fn each_fault_of_a_house_is_told() {
    let folder = Folder::new("faults_house");
    let cases = [
        // values and their ranges
        ("useful_area = 36", "useful_area = 0", "3: useful_area is 0, out of its range above 0 to 100,000"),
        ("volume = 100", "volume = nan", "4: volume is nan, out of its range above 0 to 100,000"),
        ("volume = 100", "volume = \"large\"", "4: volume is \"large\", not a number (above 0 to 100,000)"),
        ("volume = 100", "volume = true", "4: volume is true, not a number (above 0 to 100,000)"),
        ("start_up_limit = 100", "start_up_limit = 10001", "2: start_up_limit is 10001, out of its range 1 to 10,000"),
        ("start_up_limit = 100", "start_up_limit = 1.5", "2: start_up_limit is 1.5, not a whole number"),
        ("temp_setpnt_init = 20", "temp_setpnt_init = -300", "7: temp_setpnt_init is -300, out of its range -273.15 to 100"),
        ("temp_setpnt_init = 20", "temp_setpnt_init = \"none\"", "7: temp_setpnt_init is \"none\", not a number (-273.15 to 100)"),
        ("h_re = 4.14", "h_re = 1e400", "20: invalid number, in \"h_re = 1e400\""),
        ("pitch = 90\nh_ce = 20", "pitch = 181\nh_ce = 20", "18: element wall: pitch is 181, out of its range 0 to 180"),
        ("[1000, 2000, 3000, 4000, 5000]", "[1000,\n2000,\n -1,\n4000, 5000]", "26: element wall: k_pli[2] is -1, out of its range 0 to 10,000,000"),
        ("[1, 2, 3, 4]", "[1, 0, 3, 4]", "25: element wall: h_pli[1] is 0, out of its range above 0 to 1,000,000"),
        ("[1, 2, 3, 4]", "[1, 2, 3]", "25: element wall: h_pli has 3 values, where 4 are needed"),
        ("k_pli = [0, 3600]", "k_pli = 3", "37: element pane: k_pli has 1 value, where 2 are needed"),
        ("delta_r = [0.1, 0.2]", "delta_r = [0.1, 2000]", "39: element pane: delta_r[1] is 2000, out of its range 0 to 1,000"),
        ("delta_r = [0.1, 0.2]", "delta_r = [1, 2, 3, 4, 5]", "39: element pane: delta_r has 5 values, more than 4"),
        ("h_pli = [1, 2, 3, 4]", "h_pli = [1, 2, 3, 4]\ndelta_r = [1]", "26: element wall: delta_r: only a Transparent has treatments"),
        ("{ temp_ext = 20,", "{ temp_ext = 101,", "26: element wall: first_hour.temp_ext is 101, out of its range -100 to 100"),
        ("open = \"all\"", "open = [3]", "47: element pane: first_hour.open is 3, but it has 2 treatments"),
        ("open = \"all\"", "open = [0]", "47: open is [0], not \"none\", \"all\" or a list"),
        ("f_sh_dif = 1 }", "f_sh_dif = 1, open = [1] }", "26: element wall: first_hour.open is 1, but it has no treatments"),
        // words
        ("\"air\"", "\"water\"", "1: temp_setpnt_basis is \"water\", not one of \"air\", \"operative\""),
        ("\"Opaque\"", "\"Wall\"", "16: element wall: kind is \"Wall\", not one of \"Opaque\", \"AdjacentConditionedSpace\""),
        ("\"Opaque\"", "0", "16: element wall: kind is 0, not one of"),
        // what is missing or unknown
        ("useful_area = 36\n", "", "1: useful_area is missing"),
        ("kind = \"Opaque\"\n", "", "15: element wall: kind is missing"),
        ("k_pli = [0, 3600]\n", "", "28: element pane: k_pli is missing"),
        ("open = \"all\"\n", "", "41: element pane: first_hour.open is missing"),
        ("area = 10", "aera = 10\narea = 10", "17: element wall: aera is not known here (is area meant?)"),
        ("[conditions]", "[condition]", "9: condition is not known here (is conditions meant?)"),
        ("volume = 100", "volume = 100\ncolour = 1", "5: colour is not known here"),
        ("[element.wall]", "[element.\" wall\"]", "15: element \" wall\": a name has"),
        ("[element.wall]", "[[element]]", "15: the elements are a list, where each has to be a table"),
        ("[conditions]", "[element]\nroof = 1\n[conditions]", "10: element roof is 1, not a table"),
        // constants
        ("delta_t_h = 1", "delta_t_h = 9000", "10: conditions: delta_t_h is 9000, out of its range 0.001 to 8,760"),
        ("pane.f_sh_dir = 0.5", "pane.f_sh_dir = 1.5", "13: conditions, pane: f_sh_dir is 1.5, out of its range 0 to 1"),
        ("pane.f_sh_dir = 0.5", "pan.f_sh_dir = 0.5", "13: conditions: pan is not an element of the house (is pane meant?)"),
        ("pane.f_sh_dir = 0.5", "pane.f_sh = 0.5", "13: conditions, pane: f_sh is not known here"),
        ("pane.f_sh_dir = 0.5", "pane.temp_ext_air = 5", "13: conditions, pane: temp_ext_air is not known here"),
        ("pane.f_sh_dir = 0.5", "wall.open = [1]", "13: conditions, wall: open is 1, but it has no treatments"),
        ("pane.f_sh_dir = 0.5", "sun = 0.5", "13: conditions: sun is not known here"),
        ("pane.f_sh_dir = 0.5", "rate = 1001", "13: conditions: rate is 1001, out of its range 0 to 1,000"),
        ("pane.f_sh_dir = 0.5", "rate = \"none\"", "13: conditions: rate is \"none\", not a number (0 to 1,000)"),
        ("pane.f_sh_dir = 0.5", "pane.rate = 0.5", "13: conditions, pane: rate is not known here"),
        // TOML itself
        ("volume = 100", "volume = ", "4: expected a value, found a newline"),
        ("volume = 100", "volume = 1.2.3", "4: "),
        ("volume = 100", "volume = 100\nvolume = 100", "5: volume is given twice"),
        ("[element.pane]", "[element.wall]", "28: redefinition of table `element.wall`"),
        ("volume = 100", "volume = 1979-05-27", "4: a date or time is not a value that a house has"),
    ];
    for (from, to, expected) in cases {
        let told = faults(check(&folder, &edited(HOUSE, from, to), HOURS));
        let expected = format!("h.toml:{expected}");
        assert!(told.iter().any(|fault| fault.starts_with(&expected)), "{expected} in {told:#?}");
        // The same file makes no head.
        let answer = folder.call(&["house", "h.toml", "h.head"]);
        assert_eq!(answer.0.status.code(), Some(1));
        assert!(answer.errors().contains(&expected), "{}", answer.errors());
        assert_eq!(folder.names(), ["h.csv", "h.toml"]);
    }
}

#[test]
fn a_house_without_elements_or_with_too_many() {
    let folder = Folder::new("faults_elements");
    let common = &HOUSE[..HOUSE.find("[conditions]").unwrap()];
    let told = faults(check(&folder, common, HOURS));
    assert_eq!(told, ["h.toml:1: the house has no elements: each is a table [element.NAME]"]);
    let wall = &HOUSE[HOUSE.find("[element.wall]").unwrap()..HOUSE.find("[element.pane]").unwrap()];
    let walls = |count: usize| -> String {
        let all = (0..count).map(|n| wall.replace("element.wall", &format!("element.w{n}")));
        common.to_string() + &all.collect::<String>()
    };
    folder.write("w.toml", walls(24).as_bytes());
    folder.call(&["house", "w.toml", "w.head"]).done();
    assert_eq!(folder.read("w.head")[6], 24);
    folder.write("w.toml", walls(25).as_bytes());
    folder.call(&["house", "w.toml", "x.head"]).failed(1, "the house has 25 elements, not 1 to 24");
}

#[test]
fn each_fault_of_hours_is_told() {
    let folder = Folder::new("faults_hours");
    let cases = [
        // values and their ranges
        ("1 Jan,21,", "1 Jan,121,", "3: temp_ext_air is 121, out of its range -100 to 100"),
        ("1 Jan,21,", "1 Jan,NaN,", "3: temp_ext_air is \"NaN\", not a number (-100 to 100)"),
        ("1 Jan,21,", "1 Jan,,", "3: temp_ext_air is empty, not a number (-100 to 100)"),
        ("1 Jan,21,", "1 Jan,\"21,5\",", "3: temp_ext_air is \"21,5\", not a number (-100 to 100); its decimal sign has to be a point"),
        ("1 Jan,21,", "1 Jan,none,", "3: temp_ext_air is \"none\", not a number (-100 to 100)"),
        (
            "20,none,20",
            "20,never,20",
            "2: temp_setpnt_cool is \"never\", not a number or none (-273.15 to 1.4e32)",
        ),
        (
            "20,18,0,0,1,2",
            "20,-101,0,0,1,2",
            "3: wall.temp_ext is -101, out of its range -100 to 100",
        ),
        ("20,18,0,0,1,2", "20,18,0,2001,1,2", "3: i_sol_dif is 2001, out of its range 0 to 2,000"),
        ("20,18,0,0,1,2", "20,18,0,0,3,2", "3: pane.open is 3, but it has 2 treatments"),
        ("20,18,0,0,1,2", "20,18,0,0,5,2", "3: open is \"5\", not none, all or the numbers"),
        ("20,18,0,0,1,2", "20,18,0,0,,2", "3: open is empty, not none, all or the numbers"),
        ("20,18,0,0,1,2", "20,18,0,0,1,4", "3: hour is 4, where 2 is next"),
        ("20,18,0,0,1,2", "20,18,0,0,1,b", "3: hour is \"b\", not a whole number"),
        (
            "22,100,0,1,1,20,24,20,0.5",
            "22,100,0,1,1,20,24,20,",
            "4: either rate or both ach_target and ach_windows_open are needed",
        ),
        (
            "22,100,0,1,1,20,24,20,0.5",
            "22,100,0,1,1,20,24,20,x",
            "4: rate is \"x\", not a number (0 to 1,000)",
        ),
        // setpoints
        (
            "21,100,0,1,1,20,24",
            "21,100,0,1,1,20,19",
            "3: temp_setpnt_cool is 19, below temp_setpnt_heat, which is 20: the cooling setpoint",
        ),
        // what a spreadsheet may leave behind, where something stands in it
        (",open,hour\n", ",open,hour,\n", "2: there are 16 fields, where the heading has 17"),
        // lines
        ("1 Jan,22,", "22,", "4: there are 15 fields, where the heading has 16"),
        ("1 Jan,22,", "1 Jan,22,22,", "4: there are 17 fields, where the heading has 16"),
        // the heading
        (
            "wall.temp_ext,",
            "wal.temp_ext,",
            "1: the column wal.temp_ext: wal is not an element of the house (is wall meant?)",
        ),
        (
            "wall.temp_ext,",
            "wall.temp_exd,",
            "1: the column wall.temp_exd is not known (is temp_ext meant?)",
        ),
        (
            "gains_solar,",
            "gain_solar,",
            "1: the column gain_solar is not known (is gains_solar meant?)",
        ),
        (
            "gains_solar,",
            "gain_solar,",
            "1: gains_solar is missing: it is no column, and no constant",
        ),
        ("temp_ext,wall.temp_ext,", "wall.temp_ext,time2,", "1: pane.temp_ext is missing"),
        (",open,", ",pane.f_sh_dif,", "1: pane.open is missing"),
        (",gains_internal,", ",temp_ext_air,", "1: there are two columns temp_ext_air"),
        (
            ",rate,",
            ",ach_target,",
            "1: either rate or both ach_target and ach_windows_open are needed",
        ),
    ];
    for (from, to, expected) in cases {
        let hours = edited(HOURS, from, to);
        let told = faults(check(&folder, HOUSE, &hours));
        let expected = format!("h.csv:{expected}");
        assert!(told.iter().any(|fault| fault.starts_with(&expected)), "{expected} in {told:#?}");
        let answer = folder.call(&["hours", "h.csv", "h.year", "--head", "h.toml"]);
        assert_eq!(answer.0.status.code(), Some(1));
        assert!(answer.errors().contains(&expected), "{}", answer.errors());
        assert_eq!(folder.names(), ["h.csv", "h.toml"]);
    }
    for (text, expected) in [
        ("", "h.csv:1: there is no heading line"),
        ("# nothing\n", "h.csv:1: there is no heading line"),
        (HOURS.lines().next().unwrap(), "h.csv:1: there is no hour below the heading"),
        (&HOURS.replace(',', ";"), "h.csv:1: the columns are separated by semicolons"),
    ] {
        let mut told = Faults::new();
        assert_eq!(read_hours("h.csv", text.as_bytes(), Some(&plan()), &mut told), None);
        assert!(told.told()[0].starts_with(expected), "{told}");
    }
}

#[test]
fn faults_of_both_files_are_told_together() {
    let folder = Folder::new("faults_both");
    let house = edited(&edited(HOUSE, "volume = 100", "volume = -1"), "\"Opaque\"", "\"Wall\"");
    let told = faults(check(&folder, &house, &edited(HOURS, "1 Jan,22,", "1 Jan,222,")));
    assert_eq!(told.len(), 3, "{told:#?}");
    assert!(told[0].starts_with("h.toml:4: volume is -1,"));
    assert!(told[1].starts_with("h.toml:16: element wall: kind is"));
    assert!(told[2].starts_with("h.csv:4: temp_ext_air is 222,"));
    // Where nothing is known of the house, that is said.
    let answer = check(&folder, "volume = \n", HOURS);
    assert!(
        answer.errors().contains("h.csv cannot be checked before the house is good"),
        "{}",
        answer.errors()
    );
}

#[test]
fn a_hundred_faults_and_then_their_number() {
    let folder = Folder::new("faults_many");
    let (heading, rest) = HOURS.split_once('\n').unwrap();
    let row = rest.lines().next().unwrap().replace("1 Jan,20,100", "1 Jan,200,1e9");
    let row = row.strip_suffix(",1").unwrap();
    let rows = |count: usize| -> String {
        (1..=count).map(|number| format!("{row},{number}\n")).collect()
    };
    for (lines, number) in [
        (50, "100 faults\n"),
        (51, "102 faults, the first 100 are listed\n"),
        (8760, "17520 faults, the first 100 are listed\n"),
    ] {
        let answer = check(&folder, HOUSE, &format!("{heading}\n{}", rows(lines)));
        assert_eq!(answer.0.status.code(), Some(1));
        assert_eq!(answer.errors(), format!("hem-year: {number}"));
        let text = String::from_utf8(answer.0.stdout).unwrap();
        assert_eq!(text.lines().count(), 100);
        let last = text.lines().last().unwrap();
        assert!(last.starts_with("h.csv:51: gains_internal is 1e9,"), "{last}");
    }
    let answer = folder.call(&["hours", "h.csv", "h.year", "--head", "h.toml"]);
    let errors = answer.errors();
    assert!(errors.starts_with("hem-year: h.csv: 17520 faults, the first 100 are listed\n"));
    assert_eq!((errors.lines().count(), folder.names().len()), (101, 2));

    let good = rows(8785).replace(",200,1e9,", ",20,100,");
    let told = faults(check(&folder, HOUSE, &format!("{heading}\n{good}")));
    assert_eq!(told, ["h.csv:8786: this is hour 8785, where a book holds at most 8,784"]);
}

#[test]
fn what_the_hours_lead_to_is_checked_too() {
    let folder = Folder::new("faults_run");
    // Start-up does not settle within one pass.
    let told =
        faults(check(&folder, &edited(HOUSE, "start_up_limit = 100", "start_up_limit = 1"), HOURS));
    assert_eq!(told.len(), 1);
    assert!(told[0].starts_with("h.toml: start-up did not settle"), "{told:?}");
    // Setpoints of start-up that cross.
    let vent = "temp_setpnt_init = 20\ntemp_setpnt_vent_init = 10";
    let told = faults(check(&folder, &edited(HOUSE, "temp_setpnt_init = 20", vent), HOURS));
    assert!(told[0].contains("the first ventilation setpoint 10 °C is below"), "{told:?}");
    // Constant setpoints that cross are told once, not for each hour.
    let hours = HOURS.replace(",temp_setpnt_heat,temp_setpnt_cool", "").replace(",20,none,", ",");
    let hours = hours.replace(",20,24,", ",");
    let constants = "delta_t_h = 1\ntemp_setpnt_heat = 25\ntemp_setpnt_cool = 24";
    let told = faults(check(&folder, &edited(HOUSE, "delta_t_h = 1", constants), &hours));
    assert_eq!(told.len(), 1, "{told:?}");
    assert!(told[0].starts_with("h.csv:2: temp_setpnt_cool is 24, below temp_setpnt_heat"));
}

#[test]
fn faults_of_bytes_are_listed() {
    let folder = Folder::new("faults_bytes");
    let head = read_house("h.toml", HOUSE, &mut Faults::new()).head.unwrap();
    let hours = read_hours("h.csv", HOURS.as_bytes(), Some(&plan()), &mut Faults::new()).unwrap();
    let write = |head: &Head, hours: &[Conditions]| {
        folder.write("h.head", &head.to_bytes());
        folder.write("h.year", &hours.iter().flat_map(Conditions::to_bytes).collect::<Vec<u8>>());
        folder.call(&["check", "h.head", "h.year"])
    };
    write(&head, &hours).done();
    let mut bad_head = head.clone();
    bad_head.volume = -1.0;
    bad_head.elements[1].area = f64::NAN;
    let told = faults(write(&bad_head, &hours));
    assert_eq!(told[0], "h.head: volume is -1, out of its range above 0 to 100,000");
    assert_eq!(told[1], "h.head: element 2: area is NaN, out of its range above 0 to 100,000");

    let mut bad = hours.clone();
    bad[0].gains_solar = 1e9;
    bad[1].temp_setpnt_cool = 10.0;
    bad[2].elements[1].open = 4;
    let told = faults(write(&head, &bad));
    assert_eq!(told.len(), 3);
    assert!(told[0].starts_with("h.year: hour 1 (1 Jan 00:00): gains_solar is 1,000,000,000, out"));
    assert!(
        told[1].starts_with("h.year: hour 2 (1 Jan 01:00): the cooling setpoint 10 °C is below")
    );
    assert!(told[2].starts_with("h.year: hour 3 (1 Jan 02:00): element 2: it has 2 treatments"));
    folder.write("h.year", &hours[0].to_bytes()[1..]);
    let told = faults(folder.call(&["check", "h.head", "h.year"]));
    assert!(told[0].contains("which is not a whole number of hours of 195 bytes"), "{told:?}");
}
