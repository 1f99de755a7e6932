//! What a command has to say, for people and for machines.

use crate::failure::{Failure, BROKEN};
use crate::json::{success, Json};
use crate::kernel::output_was_closed;
use std::fs::File;
use std::io::{self, Read, Write};
use std::os::unix::io::AsFd;

/// The answer of a command that was not stopped.
pub struct Answer {
    /// For people, or the bytes asked for.
    plain: Vec<u8>,
    /// For machines.
    fields: Vec<(&'static str, Json)>,
    /// A failure that comes with the answer, and gives the status.
    pub failure: Option<Failure>,
    /// What is done, whether or not the answer gets out.
    done: Option<&'static str>,
    /// Whether it is a failure if nobody reads the answer.
    needed: bool,
}

impl Answer {
    /// A line for people, and the fields for machines.
    pub fn line(words: impl Into<String>, fields: Vec<(&'static str, Json)>) -> Answer {
        Answer::bytes((words.into() + "\n").into_bytes(), fields)
    }

    /// Bytes as they are, and the fields for machines.
    pub fn bytes(bytes: Vec<u8>, fields: Vec<(&'static str, Json)>) -> Answer {
        Answer { plain: bytes, fields, failure: None, done: None, needed: false }
    }

    /// The same for an answer that somebody has to read.
    pub fn needed(self) -> Answer {
        Answer { needed: true, ..self }
    }

    /// The same with what is done.
    pub fn done(self, done: &'static str) -> Answer {
        Answer { done: Some(done), ..self }
    }

    /// What people are shown, as text.
    pub fn text(&self) -> String {
        String::from_utf8_lossy(&self.plain).into_owned()
    }

    /// Prints it, and answers the status.
    pub fn print(self, command: &'static str, json: bool) -> Result<u8, Failure> {
        let printed = if json {
            print_bytes(format!("{}\n", self.object(command)).as_bytes())
        } else {
            print_bytes(&self.plain)
        };
        match printed {
            Err(Failure::Unread) if !self.needed => (),
            Err(failure) => return Err(failure.after(self.done)),
            Ok(()) => (),
        }
        Ok(self.failure.map_or(0, |failure| failure.status()))
    }

    fn object(&self, command: &'static str) -> Json {
        match &self.failure {
            None => success(command, self.fields.clone()),
            Some(failure) => match crate::json::failure(Some(command), failure) {
                Json::Object(fields) => Json::Object([fields, self.fields.clone()].concat()),
                other => other,
            },
        }
    }
}

/// The line that tells people of a failure.
pub fn told(failure: &Failure) -> String {
    format!("tjornsaki: {failure}")
}

/// Writes to standard output to the last byte.
pub fn print_bytes(bytes: &[u8]) -> Result<(), Failure> {
    print(|out| out.write_all(bytes))
}

/// The same with bytes that come in pieces.
pub fn print_pieces(bytes: &mut dyn Read) -> Result<(), Failure> {
    print(|out| io::copy(bytes, out).map(|_| ()))
}

/// It is written to as a file: Rust's own standard output says that all went well
/// where it is closed.
fn print(write: impl FnOnce(&mut File) -> io::Result<()>) -> Result<(), Failure> {
    if output_was_closed() {
        return Err(Failure::Other(BROKEN, "standard output is closed".into()));
    }
    let done = io::stdout().as_fd().try_clone_to_owned();
    let done = done.map(File::from).and_then(|mut out| write(&mut out));
    done.map_err(|error| Failure::output(&error))
}
