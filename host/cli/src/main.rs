//! The command line: a store in two files, the pool and the records.
#![deny(unsafe_code)]

mod answer;
mod commands;
mod completion;
mod demo;
mod draw;
mod failure;
mod files;
mod help;
mod json;
mod kernel;
mod layout;
mod lock;
mod log;
mod manual;
mod pair;
mod reason;
mod replace;
mod survey;
mod wording;
mod words;

use failure::Failure;
use std::ffi::OsString;
use std::io::Write;
use std::panic;
use std::process::ExitCode;
use words::{take_apart, Asked};

fn main() -> ExitCode {
    let args: Vec<OsString> = std::env::args_os().skip(1).collect();
    panic::set_hook(Box::new(|_| ()));
    let ended = panic::catch_unwind(|| run(&args));
    let told = ended.unwrap_or_else(|fault| Err((None, Failure::internal(words_of(&*fault)))));
    match told {
        Ok(status) => ExitCode::from(status),
        Err((command, failure)) => {
            tell(&args, command, &failure);
            ExitCode::from(failure.status())
        }
    }
}

/// A failure, and the command that it happened to.
type Told = (Option<&'static str>, Failure);

fn run(args: &[OsString]) -> Result<u8, Told> {
    if let Some(text) = page(args) {
        return print(&text);
    }
    let asked = take_apart(args).map_err(|failure| (None, failure))?;
    let words = match asked {
        Asked::Run(words) => words,
        Asked::Help(command) => return print(&help::help(command)),
        Asked::Version => return print(concat!("tjornsaki ", env!("CARGO_PKG_VERSION"), "\n")),
    };
    let name = words.command.name;
    let told = |failure| (Some(name), failure);
    let answer = commands::run(&words).map_err(told)?;
    answer.print(name, words.flag("--json")).map_err(told)
}

/// A page that is made from the table of commands, for `make install`.
fn page(args: &[OsString]) -> Option<String> {
    match args {
        [word] if word == "--manual" => Some(manual::manual()),
        [word, shell] if word == "--completion" && shell == "bash" => Some(completion::bash()),
        _ => None,
    }
}

/// Prints a text that nobody has to read to its end.
fn print(text: &str) -> Result<u8, Told> {
    match answer::print_bytes(text.as_bytes()) {
        Ok(()) | Err(Failure::Unread) => Ok(0),
        Err(failure) => Err((None, failure)),
    }
}

/// Says what failed: to people on standard error, to machines on output, or on
/// standard error too if nothing gets out there.
fn tell(args: &[OsString], command: Option<&'static str>, failure: &Failure) {
    let machine = args.iter().take_while(|word| *word != "--").any(|word| word == "--json");
    let object = || format!("{}\n", json::failure(command, failure));
    if !machine || answer::print_bytes(object().as_bytes()).is_err() {
        let _ = writeln!(std::io::stderr(), "{}", answer::told(failure));
    }
}

/// The words of a panic.
fn words_of(fault: &(dyn std::any::Any + Send)) -> String {
    let text = fault.downcast_ref::<String>().map(String::as_str);
    let text = text.or_else(|| fault.downcast_ref::<&str>().copied());
    format!("a fault of this program: {}", text.unwrap_or("it says nothing more"))
}
