//! The commands that change a store.

use super::place;
use crate::answer::Answer;
use crate::failure::{Failure, NO_INPUT};
use crate::files::{up_to_most, MOST_BYTES};
use crate::json::Json;
use crate::pair::{Pair, Place};
use crate::reason::{explained, Question};
use crate::wording::counted;
use crate::words::Words;
use std::fs::File;
use std::path::{Path, PathBuf};
use tjornsaki::{Refusal, MOST_SLOTS};

/// Slots of a new store where no number is given.
const SLOTS: u64 = 16;

pub fn init(words: &Words) -> Result<Answer, Failure> {
    let slots = words.number_of("--slots")?.unwrap_or(SLOTS);
    let most = MOST_SLOTS as u64;
    if slots == 0 || slots > most {
        return Err(Failure::usage(format!("--slots takes 1 to {most}, not {slots}")));
    }
    let (force, forget) = (words.flag("--force"), words.flag("--forget-history"));
    if force && !forget {
        return Err(Failure::usage(
            "--force lets all versions start again, so that pools from before may pass as this \
             store's own; add --forget-history if that is meant, or make the store elsewhere",
        ));
    }
    let (pool, records) = tjornsaki::room(slots as usize);
    let mut pair = Pair { pool, records };
    tjornsaki::wipe(&mut pair.pool, &mut pair.records)?;
    place(words)?.make(pair, force)?;
    Ok(Answer::line(counted(slots, "free slot"), vec![("slots", Json::Number(slots))]))
}

pub fn create(words: &Words) -> Result<Answer, Failure> {
    let root = change(&place(words)?, Question::default(), |Pair { pool, records }| {
        tjornsaki::create(pool, records)
    })?;
    Ok(Answer::line(root.to_string(), vec![("root", Json::Number(root))]).needed())
}

pub fn put(words: &Words) -> Result<Answer, Failure> {
    let root = words.number(0)?;
    let place = place(words)?;
    let data = match (words.flag("--empty"), words.file(1)) {
        (true, Some(_)) => return Err(Failure::usage("--empty takes no FILE")),
        (true, None) => Vec::new(),
        (false, file) => input(file, "; `put ROOT --empty` empties a blob")?,
    };
    let length = data.len() as u64;
    let or_more = length > MOST_BYTES;
    let question = Question { or_more, ..Question::resize(root, length) };
    change(&place, question, |Pair { pool, records }| {
        tjornsaki::resize(pool, records, root, length)?;
        tjornsaki::write(pool, records, root, 0, &data)
    })?;
    let fields = vec![("root", Json::Number(root)), ("length", Json::Number(length))];
    Ok(Answer::line(format!("blob {root} has {}", counted(length, "byte")), fields))
}

pub fn write(words: &Words) -> Result<Answer, Failure> {
    let (root, offset) = (words.number(0)?, words.number(1)?);
    let place = place(words)?;
    let data = input(words.file(2), "")?;
    change(&place, Question::of(root), |Pair { pool, records }| {
        tjornsaki::write(pool, records, root, offset, &data)
    })?;
    let size = data.len() as u64;
    let fields = vec![
        ("root", Json::Number(root)),
        ("offset", Json::Number(offset)),
        ("size", Json::Number(size)),
    ];
    Ok(Answer::line(format!("{} into blob {root}", counted(size, "byte")), fields))
}

pub fn resize(words: &Words) -> Result<Answer, Failure> {
    let (root, length) = (words.number(0)?, words.number(1)?);
    change(&place(words)?, Question::resize(root, length), |Pair { pool, records }| {
        tjornsaki::resize(pool, records, root, length)
    })?;
    let fields = vec![("root", Json::Number(root)), ("length", Json::Number(length))];
    Ok(Answer::line(format!("blob {root} has {}", counted(length, "byte")), fields))
}

pub fn delete(words: &Words) -> Result<Answer, Failure> {
    let root = words.number(0)?;
    change(&place(words)?, Question::of(root), |Pair { pool, records }| {
        tjornsaki::delete(pool, records, root)
    })?;
    Ok(Answer::line(format!("blob {root} is deleted"), vec![("root", Json::Number(root))]))
}

/// Makes a change; if it is refused, the store says what it knows of the reason.
fn change<T>(
    place: &Place,
    question: Question,
    call: impl FnOnce(&mut Pair) -> Result<T, Refusal>,
) -> Result<T, Failure> {
    let mut reason = None;
    let done = place.change(|pair| {
        let done = call(pair);
        reason = done.as_ref().err().map(|refusal| explained(*refusal, pair, question));
        done
    });
    done.map_err(|failure| reason.unwrap_or(failure))
}

/// All of a file, or of standard input. It is read before the store is locked,
/// so that a pipe may come from another command on the same store. Where no bytes
/// come, other than from a plain file, somebody closed the input or a command
/// before this one failed: that is never taken for what is to be stored.
fn input(file: Option<PathBuf>, hint: &str) -> Result<Vec<u8>, Failure> {
    let path = file.as_deref().unwrap_or_else(|| Path::new("standard input"));
    let bytes = match &file {
        Some(path) => File::open(path).and_then(up_to_most),
        None => up_to_most(std::io::stdin().lock()),
    };
    let bytes = bytes.map_err(|error| Failure::file("read", path, &error))?;
    if bytes.is_empty() && !file.map_or(false, |path| path.is_file()) {
        let words = "nothing is changed: standard input, or a pipe, has no bytes";
        return Err(Failure::Other(NO_INPUT, format!("{words}{hint}")));
    }
    Ok(bytes)
}
