//! Why the program ends without having done its work.
use hem_zone::text::Faults;
use hem_zone::Refusal;
use std::fmt;
use std::io;
use std::path::Path;

/// A failure, by what the exit status tells of it.
#[derive(Debug)]
pub enum Failure {
    /// The engine refused, or a text has faults: status 1.
    Refused(String),
    /// The words of the command: status 2.
    Usage(String),
    /// A file that cannot be read, written or used here: status 2.
    File(String),
    /// Stopped from outside, with the status that says by which signal.
    Stopped(String, u8),
}

impl Failure {
    pub fn usage(text: impl Into<String>) -> Self {
        Self::Usage(text.into())
    }

    /// A file error, with what was being done.
    pub fn io(doing: &str, path: &Path, error: io::Error) -> Self {
        Self::File(format!("{}: cannot {doing}: {error}", path.display()))
    }

    /// A file that is readable but not usable.
    pub fn file(path: &Path, text: impl fmt::Display) -> Self {
        Self::File(format!("{}: {text}", path.display()))
    }

    /// A refusal of the engine, about a file.
    pub fn refused(path: &Path, refusal: &Refusal) -> Self {
        Self::Refused(format!("{}: {refusal}", path.display()))
    }

    /// What is wrong with a text: one fault in its sentence, several in a list.
    pub fn faults(path: &Path, faults: &Faults) -> Self {
        Self::Refused(match faults.count() {
            1 => faults.to_string().trim_end().into(),
            _ => format!("{}: {}\n{faults}", path.display(), faults.number()).trim_end().into(),
        })
    }

    pub fn exit_status(&self) -> u8 {
        match self {
            Self::Refused(_) => 1,
            Self::Usage(_) | Self::File(_) => 2,
            Self::Stopped(_, status) => *status,
        }
    }
}

impl fmt::Display for Failure {
    fn fmt(&self, f: &mut fmt::Formatter) -> fmt::Result {
        match self {
            Self::Refused(text) | Self::Usage(text) | Self::File(text) | Self::Stopped(text, _) => {
                f.write_str(text)
            }
        }
    }
}
