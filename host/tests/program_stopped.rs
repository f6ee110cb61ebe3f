//! hem-year loses no file: nothing is half-written or left behind where a run is killed or stopped, meets a
//! full or read-only drive, or is not alone.
mod common;

use common::{Answer, Folder, ENTRY, HEAD};
use hem_zone::samples::house_p;
use rustix::fs::{flock, FlockOperation};
use std::fs::{self, OpenOptions, Permissions};
use std::io::{self, Write};
use std::os::unix::fs::{OpenOptionsExt, PermissionsExt};
use std::process::{Child, Command};
use std::thread::sleep;
use std::time::{Duration, Instant};

/// Says that a test did not run, to `../test`, which counts it apart: past the test runner, which holds back what a passing test prints.
fn skipped(test: &str, why: &str) {
    io::stderr().write_all(format!("\nskipped: {test}, {why}\n").as_bytes()).unwrap();
}

/// Whether this user may mount a file system of his own.
fn can_mount() -> bool {
    let tried =
        Command::new("unshare").args(["-rm", "mount", "-t", "tmpfs", "none", "/mnt"]).output();
    tried.is_ok_and(|output| output.status.success())
}

#[test]
fn a_read_only_or_full_drive_is_told_and_loses_nothing() {
    if !can_mount() {
        let why = "this user may not mount a drive: ulimit stands for a full one in the next test";
        return skipped("a_read_only_or_full_drive_is_told_and_loses_nothing", why);
    }
    let folder = Folder::with_house_p("drive", 2000);
    folder.run().done();
    let whole = folder.read("p.book");
    fs::create_dir(folder.path("drive")).unwrap();
    // 64 KiB hold some 300 hours. What the full drive held is copied out, and goes on elsewhere.
    let script = "exec unshare -rm bash -c '\
        mount -t tmpfs -o size=64k none drive || exit 99; \
        \"$Y\" run p.head p.year drive/p.book 2> said; echo $? >> said; \
        \"$Y\" report drive/p.book --csv drive/x.csv --svg drive/x.svg 2>> said; echo $? >> said; \
        cp drive/p.book held.book; ls -A drive >> said; \
        mount -o remount,ro drive; \
        \"$Y\" run p.head p.year drive/p.book 2>> said; echo $? >> said; \
        \"$Y\" run p.head p.year drive/new.book 2>> said; echo $? >> said'";
    folder.shell(script);
    let said = folder.text("said");
    let lines: Vec<&str> = said.lines().collect();
    assert!(lines[0].contains("drive/p.book: cannot be written: No space left"), "{said}");
    assert!(lines[0].contains("; it holds the ") && lines[1] == "2", "{said}");
    assert!(lines[2].contains("drive/x.csv: cannot be written: No space left"), "{said}");
    assert_eq!((lines[3], lines[4]), ("2", "p.book"), "{said}");
    assert!(lines[5].contains("drive/p.book: cannot be opened for writing: Read-only"), "{said}");
    assert!(lines[7].contains("drive/new.book: cannot be written: Read-only"), "{said}");
    assert_eq!((lines[6], lines[8], lines.len()), ("2", "2", 9), "{said}");
    let held = folder.read("held.book");
    assert!(held.len() > HEAD + 100 * ENTRY && whole.starts_with(&held));
    folder.call(&["run", "p.head", "p.year", "held.book"]).done();
    assert_eq!(folder.read("held.book"), whole);
}

#[test]
fn a_limit_of_size_is_told_and_loses_nothing() {
    let folder = Folder::with_house_p("limit", 100);
    folder.run().done();
    let whole = folder.read("p.book");
    folder.remove("p.book");
    // 8 KiB: 37 hours, and a part of the next, which the next run drops.
    let run = "ulimit -f 8; exec \"$Y\" run p.head p.year p.book";
    let words = "p.book: cannot be written: File too large (os error 27); \
                 it holds the 37 hours before hour 38 (2 Jan 13:00)";
    folder.shell(run).failed(2, words);
    assert_eq!(folder.read("p.book"), &whole[..8192]);
    let said = folder.run().done();
    assert!(said.contains("37 hours were held (37 of version 2), 63 appended"), "{said}");
    assert_eq!(folder.read("p.book"), whole);

    // The drawing does not fit, so the table is not put in place either.
    folder.call(&["cut", "p.book", "2", "two.book"]).done();
    let report = "ulimit -f 3; exec \"$Y\" report two.book --csv x.csv --svg x.svg";
    folder.shell(report).failed(2, "x.svg: cannot be written: File too large");
    folder.shell("exec \"$Y\" report two.book > /dev/full").failed(2, "standard output: No space");
    folder
        .shell("ulimit -f 1; exec \"$Y\" cut p.book 50 half.book")
        .failed(2, "half.book: cannot be");
    assert_eq!(folder.names(), ["p.book", "p.head", "p.year", "two.book"]);
}

// ---- stopped and killed ----

fn wait_for(what: impl Fn() -> bool) {
    let began = Instant::now();
    while !what() && began.elapsed() < Duration::from_secs(20) {
        sleep(Duration::from_millis(1));
    }
}

/// Sends a signal to a run and gives its answer.
fn signalled(child: Child, signal: &str) -> Answer {
    let kill = format!("kill {signal} {}", child.id());
    Command::new("bash").args(["-c", &kill]).status().unwrap();
    Answer(child.wait_with_output().unwrap())
}

#[test]
fn a_run_that_is_stopped_says_what_it_holds_and_goes_on() {
    let folder = Folder::with_house_p("stopped", 8000);
    folder.run().done();
    let whole = folder.read("p.book");
    for (signal, status) in [("-INT", 130), ("-TERM", 143)] {
        // A fast machine may be done before the signal comes: then once more.
        let mut seen = false;
        for _ in 0..20 {
            folder.remove("p.book");
            let run = folder.start(&Folder::RUN);
            let book = folder.path("p.book");
            wait_for(|| fs::metadata(&book).is_ok_and(|data| data.len() > 3000));
            let answer = signalled(run, signal);
            let bytes = folder.read("p.book");
            if answer.0.status.code() == Some(0) {
                assert_eq!(bytes, whole);
                continue;
            }
            let (held, torn) = ((bytes.len() - HEAD) / ENTRY, (bytes.len() - HEAD) % ENTRY);
            assert_eq!((torn, whole.starts_with(&bytes)), (0, true));
            let number = match held {
                0..=999 => held.to_string(),
                _ => format!("{},{:03}", held / 1000, held % 1000),
            };
            answer.failed(status, &format!("stopped; p.book holds {number} hours, to "));
            seen = true;
            break;
        }
        assert!(seen, "no run was stopped by {signal}");
        folder.run().done();
        assert_eq!(folder.read("p.book"), whole);
    }
}

#[test]
fn a_run_that_is_killed_goes_on_and_leaves_no_other_file() {
    let folder = Folder::with_house_p("killed", 4000);
    folder.run().done();
    let whole = folder.read("p.book");
    folder.remove("p.book");
    // Where a file system has no files without a name, a hidden one may stay until the next run.
    let flags = rustix::fs::OFlags::TMPFILE.bits() as i32;
    let unnamed = OpenOptions::new().write(true).custom_flags(flags).open(&folder.0).is_ok();
    for delay in [0, 1, 2, 3, 4, 5, 7, 10, 15, 20, 60, 150] {
        let mut run = folder.start(&Folder::RUN);
        sleep(Duration::from_millis(delay));
        run.kill().unwrap();
        run.wait().unwrap();
        let mut names = folder.names();
        names.retain(|name| unnamed || name != ".p.book.hem-year");
        assert!(
            names == ["p.head", "p.year"] || names == ["p.book", "p.head", "p.year"],
            "{names:?}"
        );
    }
    folder.run().done();
    assert_eq!(folder.read("p.book"), whole);
    assert_eq!(folder.names(), ["p.book", "p.head", "p.year"]);
}

#[test]
fn a_report_that_is_killed_leaves_whole_files_or_none() {
    let folder = Folder::with_house_p("report-killed", 2000);
    folder.run().done();
    let report = ["report", "p.book", "--csv", "x.csv", "--svg", "x.svg"];
    folder.call(&report).done();
    let whole = [folder.read("x.csv"), folder.read("x.svg")];
    // A draft that a kill left in spite of all is gone with the next report.
    folder.write(".x.csv.hem-year", b"left");
    for delay in (0..300).step_by(30) {
        let mut run = folder.start(&report);
        sleep(Duration::from_millis(delay));
        let _ = run.kill();
        run.wait().unwrap();
        assert_eq!([folder.read("x.csv"), folder.read("x.svg")], whole);
    }
    folder.call(&report).done();
    assert_eq!(folder.names(), ["p.book", "p.head", "p.year", "x.csv", "x.svg"]);
}

// ---- two at once ----

#[test]
fn two_runs_do_not_write_one_book() {
    let folder = Folder::with_house_p("lock", 2);
    folder.run().done();
    let held = OpenOptions::new().append(true).open(folder.path("p.book")).unwrap();
    flock(&held, FlockOperation::LockExclusive).unwrap();
    folder.run().failed(2, "p.book: another run is writing this book");
    // A program that another test is starting may hold the file for a moment more, so it is not only closed.
    flock(&held, FlockOperation::Unlock).unwrap();
    folder.run().done();
}

#[test]
fn of_two_runs_that_begin_a_book_one_writes_it() {
    let folder = Folder::with_house_p("race", 300);
    folder.run().done();
    let whole = folder.read("p.book");
    for _ in 0..8 {
        folder.remove("p.book");
        let runs = [folder.start(&Folder::RUN), folder.start(&Folder::RUN)];
        let answers = runs.map(|run| Answer(run.wait_with_output().unwrap()));
        assert!(answers.iter().any(|a| a.0.status.code() == Some(0)));
        for answer in answers.into_iter().filter(|a| a.0.status.code() != Some(0)) {
            answer.failed(2, "another run is writing this book");
        }
        assert_eq!(folder.read("p.book"), whole);
        assert_eq!(folder.names(), ["p.book", "p.head", "p.year"]);
    }
}

#[test]
fn two_reports_at_once_leave_whole_files() {
    let folder = Folder::with_house_p("reports", 200);
    folder.run().done();
    let report = ["report", "p.book", "--csv", "x.csv", "--svg", "x.svg"];
    folder.call(&report).done();
    let whole = [folder.read("x.csv"), folder.read("x.svg")];
    for _ in 0..8 {
        let reports = [(); 4].map(|()| folder.start(&report));
        for report in reports {
            let answer = Answer(report.wait_with_output().unwrap());
            assert_eq!((answer.0.status.code(), answer.errors()), (Some(0), String::new()));
        }
        assert_eq!([folder.read("x.csv"), folder.read("x.svg")], whole);
    }
    assert_eq!(folder.names(), ["p.book", "p.head", "p.year", "x.csv", "x.svg"]);
}

#[test]
fn a_folder_that_may_be_written_but_not_read_will_do() {
    let folder = Folder::with_house_p("box", 3);
    fs::create_dir(folder.path("box")).unwrap();
    fs::set_permissions(folder.path("box"), Permissions::from_mode(0o333)).unwrap();
    if fs::read_dir(folder.path("box")).is_ok() {
        let why = "this user may read every folder";
        return skipped("a_folder_that_may_be_written_but_not_read_will_do", why);
    }
    folder.call(&["run", "p.head", "p.year", "box/p.book"]).done();
    assert!(folder.read("box/p.book").starts_with(&house_p().to_bytes()));
}
