//! A book and its file.
//!
//! Only whole entries are added to the file, one write each, and it is synced after each day. So a cut
//! at any byte leaves the entries before it, and perhaps a part of one, which is dropped once the
//! engine has accepted the rest (README.md, "What is promised of files").
use crate::calendar::{hour_name, Moment};
use crate::damage;
use crate::failure::Failure;
use crate::files;
use crate::inputs::Year;
use crate::output;
use crate::progress::Progress;
use crate::stop::Stop;
use crate::words::hours;
use hem_zone::{Book, Rule, Zone};
use rustix::fs::{flock, FlockOperation};
use std::fs::{File, OpenOptions};
use std::io::{self, ErrorKind, Read, Write};
use std::path::Path;

/// Entries between two syncs: a simulated day.
const SYNC_EVERY: usize = 24;

/// A book and its file, which hold the same entries.
pub struct Store<'a> {
    path: &'a Path,
    file: File,
    /// Bytes of the file, an entry that was not written to its end included.
    file_len: usize,
    pub book: Book,
    /// Where the book ends, in hours since the year began.
    end: f64,
}

impl<'a> Store<'a> {
    /// Takes the book up, or begins it where there is none. `head` is the file of the zone's head.
    pub fn open(path: &'a Path, head: &Path, zone: &Zone) -> Result<Self, Failure> {
        if is_missing(path)? {
            let book = Book::begin(zone.head()).map_err(|r| Failure::refused(head, &r))?;
            // Where another run was faster, its book is taken up, or found to be locked.
            output::create(path, book.bytes())?;
        }
        let mut file = open_to_write(path)?;
        lock(path, &file)?;
        let mut bytes = vec![];
        file.read_to_end(&mut bytes).map_err(|e| Failure::io("be read", path, e))?;
        let book = damage::take_up_with_head(path, &bytes, head, zone)?;
        // The hours that are found choose the rule of those to come. They are stored first, so that
        // the same command finds them again after a power cut.
        file.sync_data().map_err(|e| Failure::io("be written", path, e))?;
        let end = book.entries().map(|e| e.conditions().delta_t_h).sum();
        Ok(Self { path, file, file_len: bytes.len(), book, end })
    }

    /// Cuts off an entry that was not written to its end; gives the number of its bytes.
    pub fn drop_torn_tail(&mut self) -> Result<usize, Failure> {
        let used = self.book.bytes().len();
        let torn = self.file_len - used;
        if torn > 0 {
            let cut = self.file.set_len(used as u64).and_then(|()| self.file.sync_all());
            cut.map_err(|e| Failure::io("be cut to its whole hours", self.path, e))?;
        }
        Ok(torn)
    }

    /// Appends the hours that the book does not hold yet, by this rule.
    pub fn append_missing(&mut self, year: &Year, rule: Rule, stop: &Stop) -> Result<(), Failure> {
        let mut progress = Progress::new(year.len());
        for place in self.book.hours()..year.len() {
            let done = match stop.asked() {
                None => self.append(year.hour(place), rule),
                Some(status) => Err(Failure::Stopped(self.stopped(), status)),
            };
            if let Err(failure) = done {
                // What was appended before stays in any case.
                let _ = self.file.sync_data();
                return Err(failure);
            }
            progress.at(self.book.hours(), &Moment(self.end).date());
        }
        self.sync()
    }

    fn append(&mut self, conditions: &[u8], rule: Rule) -> Result<(), Failure> {
        let held = self.book.hours();
        let name = hour_name(held, self.end);
        let entry = self.book.append(conditions, rule).map_err(|refusal| {
            let text = format!("{name}: {refusal}; the book holds the {} before it", hours(held));
            Failure::Refused(text)
        })?;
        self.file.write_all(entry).map_err(|e| {
            let text =
                format!("cannot be written: {e}; it holds the {} before {name}", hours(held));
            Failure::file(self.path, text)
        })?;
        self.end += self.book.entry(held).map_or(0.0, |entry| entry.conditions().delta_t_h);
        match self.book.hours() % SYNC_EVERY {
            0 => self.sync(),
            _ => Ok(()),
        }
    }

    fn stopped(&self) -> String {
        format!(
            "stopped; {} holds {}, to {}; the same command goes on from there",
            self.path.display(),
            hours(self.book.hours()),
            Moment(self.end).end_date().trim()
        )
    }

    fn sync(&self) -> Result<(), Failure> {
        self.file.sync_data().map_err(|e| Failure::io("be written", self.path, e))
    }
}

/// Whether there is no file yet.
pub fn is_missing(path: &Path) -> Result<bool, Failure> {
    match std::fs::metadata(path) {
        Ok(_) => Ok(false),
        Err(e) if e.kind() == ErrorKind::NotFound => Ok(true),
        Err(e) => Err(Failure::io("be read", path, e)),
    }
}

fn open_to_write(path: &Path) -> Result<File, Failure> {
    files::must_be_readable(path)?;
    let failure = |e| Failure::io("be opened for writing", path, e);
    if std::fs::metadata(path).map_err(failure)?.permissions().readonly() {
        return Err(Failure::file(path, "cannot be written: it is read-only"));
    }
    OpenOptions::new().read(true).append(true).open(path).map_err(failure)
}

/// One run at a time writes a book. A drive that has no locks is told of, since nothing would keep two
/// runs from writing one book there.
fn lock(path: &Path, file: &File) -> Result<(), Failure> {
    match flock(file, FlockOperation::NonBlockingLockExclusive).map_err(io::Error::from) {
        Ok(()) => Ok(()),
        Err(e) if e.kind() == ErrorKind::WouldBlock => {
            Err(Failure::file(path, "another run is writing this book"))
        }
        Err(e) => Err(Failure::io("be locked against other runs", path, e)),
    }
}

#[cfg(test)]
mod tests {
    use super::*;
    use rustix::fs::OFlags;
    use std::os::unix::fs::OpenOptionsExt;

    #[test]
    fn a_lock_that_cannot_be_had_is_told() {
        // A file that is opened only as a place can be neither read nor locked.
        let place = OFlags::PATH.bits() as i32;
        let file = OpenOptions::new().read(true).custom_flags(place).open(".").unwrap();
        let failure = lock(Path::new("x.book"), &file).unwrap_err();
        assert_eq!(failure.exit_status(), 2);
        let text = failure.to_string();
        assert!(text.starts_with("x.book: cannot be locked against other runs: "), "{text}");
    }
}
