//! The program hem-year, run as a user runs it.
#![allow(dead_code)] // Each file of tests uses a part of this.
pub mod hours;
pub mod plant;
pub mod table;
pub mod warm;

use hem_zone::samples::{hour_p, house_p};
use std::fs;
use std::path::{Path, PathBuf};
use std::process::{Child, Command, Output, Stdio};

pub const PROGRAM: &str = env!("CARGO_BIN_EXE_hem-year");
/// Bytes of House P's head, of the conditions of an hour, and of an entry of versions 1 and 2 and of 3.
pub const HEAD: usize = 180;
pub const HOUR: usize = 154;
pub const ENTRY: usize = 216;
pub const ENTRY_3: usize = 232;

/// A folder of its own for each test, gone when the test is done.
pub struct Folder(pub PathBuf);

impl Folder {
    pub fn new(name: &str) -> Self {
        let path = Path::new(env!("CARGO_TARGET_TMPDIR")).join(name);
        let _ = fs::remove_dir_all(&path);
        fs::create_dir_all(&path).unwrap();
        Self(path)
    }

    pub fn path(&self, name: &str) -> PathBuf {
        self.0.join(name)
    }

    pub fn read(&self, name: &str) -> Vec<u8> {
        fs::read(self.path(name)).unwrap()
    }

    pub fn text(&self, name: &str) -> String {
        String::from_utf8(self.read(name)).unwrap()
    }

    pub fn write(&self, name: &str, bytes: &[u8]) {
        fs::write(self.path(name), bytes).unwrap()
    }

    pub fn remove(&self, name: &str) {
        fs::remove_file(self.path(name)).unwrap()
    }

    /// All names, hidden ones too.
    pub fn names(&self) -> Vec<String> {
        let entries = fs::read_dir(&self.0).unwrap();
        let mut names: Vec<_> =
            entries.map(|e| e.unwrap().file_name().into_string().unwrap()).collect();
        names.sort();
        names
    }

    /// Runs hem-year in the folder.
    pub fn call(&self, words: &[&str]) -> Answer {
        let output = Command::new(PROGRAM).args(words).current_dir(&self.0).output().unwrap();
        Answer(output)
    }

    /// Runs hem-year in the folder from a shell, after some other commands. `$Y` is the program.
    pub fn shell(&self, script: &str) -> Answer {
        let mut bash = Command::new("bash");
        let output = bash.args(["-c", script]).env("Y", PROGRAM).current_dir(&self.0).output();
        Answer(output.unwrap())
    }

    /// Starts hem-year in the folder and does not wait for it.
    pub fn start(&self, words: &[&str]) -> Child {
        let mut program = Command::new(PROGRAM);
        let quiet = program.args(words).current_dir(&self.0).stdout(Stdio::null());
        quiet.stderr(Stdio::piped()).spawn().unwrap()
    }

    /// House P with some hours whose heating setpoint goes from 20 to 22 °C.
    pub fn with_house_p(name: &str, hours: usize) -> Self {
        let folder = Self::new(name);
        folder.write("p.head", &house_p().to_bytes());
        let year: Vec<u8> =
            (0..hours).flat_map(|i| hour_p(20.0 + (i % 3) as f64, 24.0).to_bytes()).collect();
        folder.write("p.year", &year);
        folder
    }

    pub const RUN: [&'static str; 4] = ["run", "p.head", "p.year", "p.book"];

    pub fn run(&self) -> Answer {
        self.call(&Self::RUN)
    }
}

impl Drop for Folder {
    fn drop(&mut self) {
        let _ = fs::remove_dir_all(&self.0);
    }
}

pub struct Answer(pub Output);

impl Answer {
    #[track_caller]
    pub fn done(self) -> String {
        assert_eq!(self.0.status.code(), Some(0), "{}", self.errors());
        assert_eq!(self.errors(), "", "no progress bar and no warning off a terminal");
        String::from_utf8(self.0.stdout).unwrap()
    }

    /// A failure is one line, which has these words.
    #[track_caller]
    pub fn failed(self, status: i32, words: &str) {
        let errors = self.errors();
        assert_eq!(self.0.status.code(), Some(status), "{errors}");
        assert!(errors.contains(words), "{errors}");
        assert_eq!(
            (errors.lines().count(), errors.starts_with("hem-year: ")),
            (1, true),
            "{errors}"
        );
    }

    /// A refusal that lists faults: its lines.
    #[track_caller]
    pub fn listed(self) -> Vec<String> {
        let errors = self.errors();
        assert_eq!((self.0.status.code(), self.0.stdout.len()), (Some(1), 0), "{errors}");
        errors.lines().map(String::from).collect()
    }

    pub fn errors(&self) -> String {
        String::from_utf8(self.0.stderr.clone()).unwrap()
    }
}
