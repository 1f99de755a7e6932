//! Each command, from its words to its answer.

mod changing;
mod check;
mod list;
mod reading;
mod status;

use crate::answer::{print_pieces, Answer};
use crate::demo;
use crate::failure::Failure;
use crate::pair::{Pair, Place};
use crate::words::Words;
use std::io::Read;
use std::path::{Path, PathBuf};

pub fn run(words: &Words) -> Result<Answer, Failure> {
    let changed = match words.command.name {
        "init" => changing::init(words),
        "create" => changing::create(words),
        "put" => changing::put(words),
        "write" => changing::write(words),
        "resize" => changing::resize(words),
        "delete" => changing::delete(words),
        "demo" => return demo::demo(words.value("--out").map(PathBuf::from).as_deref()),
        _ => return ask(words, &place(words)?),
    };
    changed.map(|answer| answer.done("the change is made"))
}

/// Where a reading command finds its store, and leaves an output: in a file, or
/// printed before its answer is. Bytes go there in pieces, as they come.
pub trait Source {
    fn load(&self) -> Result<Pair, Failure>;
    fn save(&self, path: &Path, bytes: &mut dyn Read) -> Result<(), Failure>;
    fn print(&self, bytes: &mut dyn Read) -> Result<(), Failure>;
}

impl Source for Place {
    fn load(&self) -> Result<Pair, Failure> {
        Place::load(self)
    }

    fn save(&self, path: &Path, bytes: &mut dyn Read) -> Result<(), Failure> {
        Place::save(self, path, bytes)
    }

    fn print(&self, bytes: &mut dyn Read) -> Result<(), Failure> {
        print_pieces(bytes)
    }
}

/// A reading command, wherever its store lies.
pub fn ask(words: &Words, source: &dyn Source) -> Result<Answer, Failure> {
    match words.command.name {
        "ls" => list::list(source),
        "length" => reading::length(words, source),
        "get" => reading::get(words, source),
        "show" => reading::show(words, source),
        "audit" => reading::audit(source),
        "check" => check::check(source),
        "status" => status::status(source),
        "draw" => reading::draw(words, source),
        name => Err(Failure::internal(format!("nothing is behind the command {name}"))),
    }
}

/// Where the store lies that the words name.
fn place(words: &Words) -> Result<Place, Failure> {
    let pool = words.path("--pool", "TJORNSAKI_POOL", "store.pool");
    let records = words.path("--records", "TJORNSAKI_RECORDS", "store.records");
    Place::new(&pool, &records, words.wait()?)
}
