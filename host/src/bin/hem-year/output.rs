//! The files that a command writes: all of them are checked before the first is written, and each is
//! put in its place whole. A file of another kind is never replaced unless that is asked for.
use crate::draft::Draft;
use crate::failure::Failure;
use crate::kind::Kind;
use std::fs::{self, File};
use std::io::{ErrorKind, Read};
use std::path::{Path, PathBuf};

/// A file that may be written, with the draft of it.
pub struct Output {
    path: PathBuf,
    draft: Draft,
}

impl Output {
    /// Checks that a file of this kind may be written here.
    pub fn check(path: &Path, kind: &Kind, force: bool) -> Result<Self, Failure> {
        must_be_replaceable(path, kind, force)?;
        let draft = Draft::new(path).map_err(|e| Failure::io("be written", path, e))?;
        Ok(Self { path: path.into(), draft })
    }
}

/// Writes checked outputs: all of them to their end, then all in their places.
pub fn put_all(outputs: Vec<(Output, &[u8])>) -> Result<(), Failure> {
    let mut whole = vec![];
    for (mut output, bytes) in outputs {
        output.draft.fill(bytes).map_err(|e| Failure::io("be written", &output.path, e))?;
        whole.push(output);
    }
    for output in whole {
        output.draft.place().map_err(|e| Failure::io("be written", &output.path, e))?;
    }
    Ok(())
}

/// Writes one file, of this kind.
pub fn put(path: &Path, kind: &Kind, force: bool, bytes: &[u8]) -> Result<(), Failure> {
    put_all(vec![(Output::check(path, kind, force)?, bytes)])
}

/// Writes a new file; `false` where there is one already, which stays as it is.
pub fn create(path: &Path, bytes: &[u8]) -> Result<bool, Failure> {
    let failure = |e| Failure::io("be written", path, e);
    let mut draft = Draft::new(path).map_err(failure)?;
    draft.fill(bytes).map_err(failure)?;
    match draft.place_new() {
        Err(e) if e.kind() == ErrorKind::AlreadyExists => Ok(false),
        done => done.map(|()| true).map_err(failure),
    }
}

/// Nothing may stand at the path of an output, or a regular file that it may replace. A link is turned
/// away too: replacing it would leave the file behind it as it was.
fn must_be_replaceable(path: &Path, kind: &Kind, force: bool) -> Result<(), Failure> {
    let data = match fs::symlink_metadata(path) {
        Err(e) if e.kind() == ErrorKind::NotFound => return Ok(()),
        Err(e) => return Err(Failure::io("be written", path, e)),
        Ok(data) => data,
    };
    if data.is_dir() {
        Err(Failure::file(path, "is a folder"))
    } else if !data.is_file() {
        Err(Failure::file(path, "is not a regular file"))
    } else if force {
        Ok(())
    } else if data.permissions().readonly() {
        Err(Failure::file(path, "is read-only; --force replaces it"))
    } else if data.len() > 0 && !begins_as(path, kind)? {
        Err(Failure::file(path, format!("exists and is not {kind}; --force replaces it")))
    } else {
        Ok(())
    }
}

fn begins_as(path: &Path, kind: &Kind) -> Result<bool, Failure> {
    let mut bytes = vec![];
    File::open(path)
        .and_then(|file| file.take(kind.looked_at()).read_to_end(&mut bytes))
        .map_err(|e| Failure::io("be read", path, e))?;
    Ok(kind.accepts(&bytes))
}
