//! The words of the command line, taken apart by a table of commands.

use crate::failure::Failure;
use crate::help::{Command, COMMANDS};
use std::ffi::{OsStr, OsString};
use std::os::unix::ffi::OsStrExt;
use std::path::PathBuf;
use std::time::Duration;

/// Options of every command, each with a value.
pub const EVERYWHERE: [&str; 3] = ["--pool", "--records", "--wait"];

/// A command with its words and options.
pub struct Words {
    pub command: &'static Command,
    words: Vec<OsString>,
    options: Vec<(String, OsString)>,
    flags: Vec<String>,
}

/// What the command line asks for.
pub enum Asked {
    Run(Words),
    Help(Option<&'static Command>),
    Version,
}

/// Takes the command line apart. Options may stand anywhere; after `--` there
/// are none.
pub fn take_apart(args: &[OsString]) -> Result<Asked, Failure> {
    let place = first_word(args).unwrap_or(0);
    let (command, rest) = match args.get(place).and_then(|word| named(word)) {
        Some(command) => (command, [&args[..place], &args[place + 1..]].concat()),
        None => return without_command(args),
    };
    if wants_help(&rest) {
        return Ok(Asked::Help(Some(command)));
    }
    let mut found = Words { command, words: vec![], options: vec![], flags: vec![] };
    let mut rest = rest.into_iter();
    let mut open = true;
    while let Some(word) = rest.next() {
        match word.as_bytes() {
            b"--" if open => open = false,
            [b'-', _, ..] if open => found.option(&word, &mut rest)?,
            _ => found.words.push(word),
        }
    }
    found.count()?;
    Ok(Asked::Run(found))
}

fn wants_help(args: &[OsString]) -> bool {
    args.iter().take_while(|word| *word != "--").any(|word| word == "--help" || word == "-h")
}

/// The place of the first word that is neither an option nor a value of one.
fn first_word(args: &[OsString]) -> Option<usize> {
    let mut place = 0;
    while place < args.len() {
        let word = args[place].to_string_lossy();
        if EVERYWHERE.contains(&word.as_ref()) {
            place += 1;
        } else if !word.starts_with('-') {
            return Some(place);
        }
        place += 1;
    }
    None
}

/// No known command: a question about the program, or a mistake.
fn without_command(args: &[OsString]) -> Result<Asked, Failure> {
    let mut words = args[first_word(args).unwrap_or(args.len())..].iter();
    let mut word = words.next();
    let asks = word.map_or(false, |word| word == "help");
    if asks {
        word = words.next();
    }
    match word {
        None if asks || wants_help(args) => Ok(Asked::Help(None)),
        None if args.iter().any(|word| word == "--version" || word == "-V") => Ok(Asked::Version),
        None => Err(Failure::usage("no command; `tjornsaki --help` lists them")),
        Some(word) => match named(word) {
            Some(command) => Ok(Asked::Help(Some(command))),
            None => Err(unknown(word)),
        },
    }
}

fn unknown(word: &OsStr) -> Failure {
    let word = word.to_string_lossy();
    Failure::usage(format!("unknown command `{word}`; `tjornsaki --help` lists them"))
}

fn named(word: &OsStr) -> Option<&'static Command> {
    COMMANDS.iter().find(|command| word == command.name)
}

impl Words {
    /// Takes an option, and its value from `--name=value` or the next word. A
    /// value may have any bytes.
    fn option(
        &mut self,
        word: &OsStr,
        rest: &mut impl Iterator<Item = OsString>,
    ) -> Result<(), Failure> {
        let mut parts = word.as_bytes().splitn(2, |byte| *byte == b'=');
        let name = String::from_utf8_lossy(parts.next().unwrap_or_default()).into_owned();
        let value = parts.next().map(|value| OsStr::from_bytes(value).to_os_string());
        let is_name = |known: &&str| *known == name;
        if EVERYWHERE.iter().chain(self.command.options).any(is_name) {
            let value = value.or_else(|| rest.next()).filter(|value| !value.is_empty());
            let value = value.ok_or_else(|| self.mistake(format!("{name} needs a value")))?;
            self.options.push((name, value));
            return Ok(());
        }
        if value.is_none() && ["--json"].iter().chain(self.command.flags).any(is_name) {
            self.flags.push(name);
            return Ok(());
        }
        let number = name.as_bytes().get(1).map_or(false, u8::is_ascii_digit);
        let hint = if number { " (numbers are not negative)" } else { "" };
        Err(self.mistake(format!("unknown option {}{hint}", word.to_string_lossy())))
    }

    /// Fails if there are too few or too many words, or one is empty.
    fn count(&self) -> Result<(), Failure> {
        let names = self.command.words;
        if self.words.iter().any(|word| word.is_empty()) {
            return Err(self.mistake("a word is empty".into()));
        }
        if self.words.len() > names.len() {
            let word = self.words[names.len()].to_string_lossy().into_owned();
            return Err(self.mistake(format!("`{word}` is one word too many")));
        }
        match names.get(self.words.len()) {
            Some(name) if !name.starts_with('[') => Err(self.mistake(format!("{name} is missing"))),
            _ => Ok(()),
        }
    }

    fn mistake(&self, words: String) -> Failure {
        let name = self.command.name;
        Failure::usage(format!("{words}; `tjornsaki {name} --help` tells more"))
    }

    pub fn flag(&self, name: &str) -> bool {
        self.flags.iter().any(|flag| flag == name)
    }

    /// The option's value, the last one given.
    pub fn value(&self, name: &str) -> Option<&OsStr> {
        let given = self.options.iter().rev().find(|(option, _)| option == name);
        given.map(|(_, value)| value.as_os_str())
    }

    /// The word at this place as a number.
    pub fn number(&self, place: usize) -> Result<u64, Failure> {
        self.as_number(self.command.words[place], &self.words[place])
    }

    /// The option's value as a number, if it is given.
    pub fn number_of(&self, name: &str) -> Result<Option<u64>, Failure> {
        self.value(name).map(|value| self.as_number(name, value)).transpose()
    }

    fn as_number(&self, name: &str, word: &OsStr) -> Result<u64, Failure> {
        let word = word.to_string_lossy();
        let digits = !word.is_empty() && word.bytes().all(|letter| letter.is_ascii_digit());
        let most = u64::MAX;
        match word.parse() {
            Ok(number) if digits => Ok(number),
            _ if digits => Err(self.mistake(format!("{name} is at most {most}, not {word}"))),
            _ => Err(self.mistake(format!("{name} is a number from 0 on, not `{word}`"))),
        }
    }

    /// The file named at this place; none where none is named, or the standard one,
    /// which goes on where others left it.
    pub fn file(&self, place: usize) -> Option<PathBuf> {
        self.words.get(place).filter(|word| !is_standard(word)).map(PathBuf::from)
    }

    /// The file that an option names for the output, in the same way.
    pub fn output(&self, option: &str) -> Option<PathBuf> {
        self.value(option).filter(|word| !is_standard(word)).map(PathBuf::from)
    }

    /// A file from an option, else from the environment, else by default.
    pub fn path(&self, option: &str, variable: &str, default: &str) -> PathBuf {
        let given = self.value(option).map(OsString::from);
        let set = || std::env::var_os(variable).filter(|value| !value.is_empty());
        PathBuf::from(given.or_else(set).unwrap_or_else(|| default.into()))
    }

    /// How long to wait for another command: by default longer than one takes.
    pub fn wait(&self) -> Result<Duration, Failure> {
        let seconds = self.number_of("--wait")?.unwrap_or(1);
        Ok(Duration::from_secs(seconds))
    }
}

fn is_standard(word: &OsStr) -> bool {
    ["-", "/dev/stdin", "/dev/stdout"].iter().any(|name| word == *name)
}
