//! Reading files, and printing.
use crate::failure::Failure;
use std::fs;
use std::io::{self, ErrorKind, Write};
use std::os::unix::fs::MetadataExt;
use std::path::Path;

/// More than the largest book has (18,476,913 bytes), and than its hours have as text. A larger file
/// is not read at all.
const MOST_BYTES: u64 = 64 << 20;

/// The bytes of a regular file.
pub fn read(path: &Path) -> Result<Vec<u8>, Failure> {
    must_be_readable(path)?;
    fs::read(path).map_err(|e| Failure::io("be read", path, e))
}

/// A file that is to be read is a regular one: a folder or a pipe is turned away.
pub fn must_be_readable(path: &Path) -> Result<(), Failure> {
    let data = fs::metadata(path).map_err(|e| Failure::io("be read", path, e))?;
    if !data.is_file() {
        Err(Failure::file(path, "is not a regular file"))
    } else if data.len() > MOST_BYTES {
        let text = format!("is too large: {} bytes, of at most {MOST_BYTES}", data.len());
        Err(Failure::file(path, text))
    } else {
        Ok(())
    }
}

/// Whether two paths lead to one file; where there is none yet, to one name in one folder.
pub fn same_file(a: &Path, b: &Path) -> bool {
    let place = |path: &Path| fs::metadata(path).map(|data| (data.dev(), data.ino())).ok();
    match (place(a), place(b)) {
        (Some(a), Some(b)) => a == b,
        (None, None) => {
            a == b || a.file_name() == b.file_name() && place(folder_of(a)) == place(folder_of(b))
        }
        _ => false,
    }
}

/// The folder that a file lies in.
pub fn folder_of(path: &Path) -> &Path {
    match path.parent() {
        Some(folder) if !folder.as_os_str().is_empty() => folder,
        _ => Path::new("."),
    }
}

/// Prints to standard output. A reader that has gone away (a closed pipe) is no failure.
pub fn print(text: &str) -> Result<(), Failure> {
    let mut out = io::stdout().lock();
    match out.write_all(text.as_bytes()).and_then(|()| out.flush()) {
        Err(e) if e.kind() != ErrorKind::BrokenPipe => {
            Err(Failure::File(format!("standard output: {e}")))
        }
        _ => Ok(()),
    }
}
