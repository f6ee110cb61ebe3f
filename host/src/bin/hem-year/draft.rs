//! A file that gets its name only when it is whole.
//!
//! It is written without any name (`O_TMPFILE`), so that nothing stays behind where the program is
//! killed. A file system that has no such files gets a hidden file beside the target, which the next
//! draft of the same target removes should it be left.
use crate::files::folder_of;
use rustix::fs::{cwd, flock, linkat, AtFlags, FlockOperation, OFlags};
use std::ffi::OsString;
use std::fs::{self, File, OpenOptions};
use std::io::{self, ErrorKind, Seek, Write};
use std::os::fd::AsRawFd;
use std::os::unix::fs::OpenOptionsExt;
use std::path::{Path, PathBuf};

pub struct Draft {
    file: File,
    target: PathBuf,
    /// The hidden name, where the draft has one.
    name: Option<PathBuf>,
}

impl Draft {
    /// An empty draft in the folder of its target. Fails where that folder cannot be written.
    pub fn new(target: &Path) -> io::Result<Self> {
        hidden_name(target)?;
        match unnamed_in(folder_of(target)) {
            Some(file) => Ok(Self { file, target: target.into(), name: None }),
            None => Self::named(target),
        }
    }

    fn named(target: &Path) -> io::Result<Self> {
        let hidden = hidden_name(target)?;
        remove_if_there(&hidden)?;
        let file = OpenOptions::new().write(true).create_new(true).open(&hidden)?;
        Ok(Self { file, target: target.into(), name: Some(hidden) })
    }

    /// Writes the whole content and makes it last.
    pub fn fill(&mut self, bytes: &[u8]) -> io::Result<()> {
        self.file.write_all(bytes)?;
        self.file.sync_all()
    }

    /// Gives the draft its name, where that name is free.
    pub fn place_new(mut self) -> io::Result<()> {
        let target = self.target.clone();
        match self.link(&target) {
            Err(e) if e.kind() != ErrorKind::AlreadyExists && self.name.is_none() => {
                self.copy_named()?.place_new()
            }
            done => done.and_then(|()| sync_folder(&target)),
        }
    }

    /// Gives the draft its name, in place of a file that may have it.
    pub fn place(mut self) -> io::Result<()> {
        let target = self.target.clone();
        // One at a time, so that a hidden name that stands there now is one that was left.
        let _turn = turn_in(folder_of(&target));
        if self.name.is_none() {
            match self.link(&target) {
                Ok(()) => return sync_folder(&target),
                Err(e) if e.kind() == ErrorKind::AlreadyExists => self.link_hidden()?,
                Err(_) => self = self.copy_named()?,
            }
        }
        if let Some(hidden) = &self.name {
            fs::rename(hidden, &target)?;
        }
        self.name = None;
        sync_folder(&target)
    }

    /// A rename needs a name to begin with: the draft has it for no longer than that takes.
    fn link_hidden(&mut self) -> io::Result<()> {
        let hidden = hidden_name(&self.target)?;
        remove_if_there(&hidden)?;
        self.link(&hidden)?;
        self.name = Some(hidden);
        Ok(())
    }

    fn link(&mut self, to: &Path) -> io::Result<()> {
        match self.name.take() {
            Some(hidden) => link_or_rename(&hidden, to).inspect_err(|_| self.name = Some(hidden)),
            None => {
                let from = format!("/proc/self/fd/{}", self.file.as_raw_fd());
                Ok(linkat(cwd(), from, cwd(), to, AtFlags::SYMLINK_FOLLOW)?)
            }
        }
    }

    /// A draft with a name and the same content, for a file system that gives no names afterwards.
    fn copy_named(&mut self) -> io::Result<Self> {
        let mut copy = Self::named(&self.target)?;
        self.file.rewind()?;
        io::copy(&mut self.file, &mut copy.file)?;
        copy.file.sync_all()?;
        Ok(copy)
    }
}

/// A draft that did not get its place leaves nothing behind.
impl Drop for Draft {
    fn drop(&mut self) {
        if let Some(hidden) = &self.name {
            let _ = fs::remove_file(hidden);
        }
    }
}

/// A file without a name, where there are such files and where they can be given one.
fn unnamed_in(folder: &Path) -> Option<File> {
    fs::metadata("/proc/self/fd").ok()?;
    let flags = OFlags::TMPFILE.bits() as i32;
    OpenOptions::new().read(true).write(true).custom_flags(flags).open(folder).ok()
}

/// Waits until no other draft is put in place in a folder. One that cannot be locked is not waited for.
fn turn_in(folder: &Path) -> Option<File> {
    let folder = File::open(folder).ok()?;
    flock(&folder, FlockOperation::LockExclusive).ok()?;
    Some(folder)
}

/// A link fails where the name is taken; a file system without links has the name tested before.
fn link_or_rename(from: &Path, to: &Path) -> io::Result<()> {
    match fs::hard_link(from, to) {
        Ok(()) => fs::remove_file(from),
        Err(e) if e.kind() == ErrorKind::AlreadyExists => Err(e),
        Err(_) if fs::symlink_metadata(to).is_ok() => Err(ErrorKind::AlreadyExists.into()),
        Err(_) => fs::rename(from, to),
    }
}

fn hidden_name(target: &Path) -> io::Result<PathBuf> {
    let Some(name) = target.file_name() else {
        return Err(io::Error::new(ErrorKind::InvalidInput, "it is not the name of a file"));
    };
    let mut hidden = OsString::from(".");
    hidden.push(name);
    hidden.push(".hem-year");
    Ok(target.with_file_name(hidden))
}

fn remove_if_there(path: &Path) -> io::Result<()> {
    match fs::remove_file(path) {
        Err(e) if e.kind() != ErrorKind::NotFound => Err(e),
        _ => Ok(()),
    }
}

/// Makes the name of a new file last. Some drives sync no folders, and some folders may be written but
/// not read: then the name lasts as well as it can, and only a failing or full disk is a failure.
fn sync_folder(path: &Path) -> io::Result<()> {
    const IO_ERROR: i32 = 5;
    match File::open(folder_of(path)).and_then(|folder| folder.sync_all()) {
        Err(e) if e.raw_os_error() == Some(IO_ERROR) || e.kind() == ErrorKind::StorageFull => {
            Err(e)
        }
        _ => Ok(()),
    }
}
