//! The files of the demo in memory, and commands typed on them.

use crate::answer::told;
use crate::commands::{ask, Source};
use crate::failure::Failure;
use crate::json::Json;
use crate::pair::Pair;
use crate::words::{take_apart, Asked};
use std::cell::RefCell;
use std::ffi::OsString;
use std::io::Read;
use std::path::Path;

/// A pool and its records among the files of the demo.
pub struct Store {
    pub pool: (String, Vec<u8>),
    pub records: (&'static str, Vec<u8>),
}

/// A command line on one of the stores, and what the command answers.
pub struct Typed {
    line: String,
    output: String,
    pub status: u8,
}

impl Typed {
    /// Lets the command itself answer, from its words on.
    pub fn new(command: &str, store: &Store) -> Result<Typed, Failure> {
        let line = format!("{command} --records {} --pool {}", store.records.0, store.pool.0);
        let args: Vec<OsString> = line.split(' ').map(OsString::from).collect();
        let desk = Desk { store, printed: RefCell::default() };
        let (output, status) = match take_apart(&args)? {
            Asked::Run(words) => match ask(&words, &desk) {
                Ok(answer) => (
                    desk.printed.take() + &answer.text(),
                    answer.failure.map_or(0, |failure| failure.status()),
                ),
                Err(failure) => (told(&failure) + "\n", failure.status()),
            },
            _ => return Err(Failure::internal(format!("{command} is no command on a store"))),
        };
        Ok(Typed { line: format!("tjornsaki {line}"), output, status })
    }

    /// As it looks in a terminal.
    pub fn shown(&self) -> String {
        let lines: Vec<String> = self.output.lines().map(|line| format!("    {line}")).collect();
        format!("    $ {}\n{}", self.line, lines.join("\n"))
    }

    pub fn row(&self) -> Json {
        Json::Object(vec![
            ("command", Json::text(&self.line)),
            ("status", Json::Number(self.status.into())),
            ("output", Json::text(&self.output)),
        ])
    }
}

/// A store as a command finds it here, and what it prints before its answer.
struct Desk<'a> {
    store: &'a Store,
    printed: RefCell<String>,
}

impl Source for Desk<'_> {
    fn load(&self) -> Result<Pair, Failure> {
        let Store { pool, records } = self.store;
        Ok(Pair { pool: pool.1.clone(), records: records.1.clone() })
    }

    fn save(&self, path: &Path, _: &mut dyn Read) -> Result<(), Failure> {
        Err(Failure::internal(format!("the demo writes no file {}", path.display())))
    }

    fn print(&self, bytes: &mut dyn Read) -> Result<(), Failure> {
        let printed = bytes.read_to_string(&mut self.printed.borrow_mut());
        printed.map(|_| ()).map_err(|error| Failure::internal(error.to_string()))
    }
}
