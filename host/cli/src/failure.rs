//! Why a command ended without success, in words and as an exit status.

use crate::reason::Reason;
use std::fmt;
use std::io;
use std::path::Path;
use tjornsaki::Refusal;

/// The words of the command line are wrong.
pub const USAGE: u8 = 64;
/// There is no input where some is needed.
pub const NO_INPUT: u8 = 65;
/// A file or a folder is missing.
pub const MISSING: u8 = 66;
/// The program is at fault.
pub const INTERNAL: u8 = 70;
/// A file is in the way.
pub const EXISTS: u8 = 73;
/// A file could not be read or written.
pub const BROKEN: u8 = 74;
/// Another command uses the store.
pub const LOCKED: u8 = 75;
/// A file may not be read or written.
pub const DENIED: u8 = 77;

const UNREAD: &str = "nobody reads standard output to its end";

#[derive(Debug)]
pub enum Failure {
    /// The store said no; the status is the refusal's number.
    Refused(Refusal),
    /// The same where there is more to say.
    Explained(Refusal, Reason),
    /// Anything else: a status from 64 on, and the words for it.
    Other(u8, String),
    /// The same, but what was asked for is done, and need not be tried again.
    Done(u8, String),
    /// Nobody reads the output to its end; to some commands that is no failure.
    Unread,
}

impl Failure {
    pub fn usage(words: impl Into<String>) -> Failure {
        Failure::Other(USAGE, words.into())
    }

    pub fn internal(words: impl Into<String>) -> Failure {
        Failure::Other(INTERNAL, words.into())
    }

    /// A failed step on a file: what could not be done, where, and why.
    pub fn file(step: &str, path: &Path, error: &io::Error) -> Failure {
        const READ_ONLY_DISK: i32 = 30;
        let status = match error.kind() {
            io::ErrorKind::NotFound => MISSING,
            io::ErrorKind::PermissionDenied => DENIED,
            _ if error.raw_os_error() == Some(READ_ONLY_DISK) => DENIED,
            _ => BROKEN,
        };
        Failure::Other(status, format!("cannot {step} {}: {error}", path.display()))
    }

    pub fn output(error: &io::Error) -> Failure {
        match error.kind() {
            io::ErrorKind::BrokenPipe => Failure::Unread,
            _ => Failure::Other(BROKEN, format!("cannot write to standard output: {error}")),
        }
    }

    /// The same with something added to its words.
    pub fn with(self, more: &str) -> Failure {
        match self {
            Failure::Other(status, words) => Failure::Other(status, format!("{words}; {more}")),
            other => other,
        }
    }

    /// The same, after something was done, if it was.
    pub fn after(self, done: Option<&str>) -> Failure {
        match (self, done) {
            (Failure::Other(status, words), Some(done)) => {
                Failure::Done(status, format!("{words}; {done}"))
            }
            (Failure::Unread, Some(done)) => Failure::Done(BROKEN, format!("{UNREAD}; {done}")),
            (other, _) => other,
        }
    }

    /// The exit status.
    pub fn status(&self) -> u8 {
        match self {
            Failure::Refused(refusal) | Failure::Explained(refusal, _) => refusal.number as u8,
            Failure::Other(status, _) | Failure::Done(status, _) => *status,
            Failure::Unread => BROKEN,
        }
    }
}

impl From<Refusal> for Failure {
    fn from(refusal: Refusal) -> Failure {
        Failure::Refused(refusal)
    }
}

impl fmt::Display for Failure {
    fn fmt(&self, out: &mut fmt::Formatter<'_>) -> fmt::Result {
        match self {
            Failure::Refused(refusal) => write!(out, "{refusal}"),
            Failure::Explained(refusal, reason) => {
                write!(out, "refused {}: {}", refusal.number, reason.sentence)
            }
            Failure::Other(_, words) | Failure::Done(_, words) => write!(out, "{words}"),
            Failure::Unread => out.write_str(UNREAD),
        }
    }
}
