//! The commands that read a store.

use super::Source;
use crate::answer::Answer;
use crate::draw;
use crate::failure::Failure;
use crate::json::Json;
use crate::layout::LEAF_BYTES;
use crate::pair::Pair;
use crate::reason::{explained, Question};
use crate::wording::counted;
use crate::words::Words;
use std::io::Read;
use tjornsaki::{Head, Refusal, BLOCK_BYTES, RECORD_BYTES};

/// What is done once an output file has its name.
const WRITTEN: &str = "the file is written";

pub fn length(words: &Words, source: &dyn Source) -> Result<Answer, Failure> {
    let root = words.number(0)?;
    let pair = source.load()?;
    let length = tjornsaki::length(&pair.pool, &pair.records, root);
    let length = length.map_err(|refusal| explained(refusal, &pair, Question::of(root)))?;
    let fields = vec![("root", Json::Number(root)), ("length", Json::Number(length))];
    Ok(Answer::line(length.to_string(), fields).needed())
}

pub fn get(words: &Words, source: &dyn Source) -> Result<Answer, Failure> {
    let root = words.number(0)?;
    let offset = words.number_of("--offset")?.unwrap_or(0);
    let size = words.number_of("--size")?;
    let pair = source.load()?;
    let part = part(&pair, root, offset, size);
    let (mut head, size) = part.map_err(|refusal| explained(refusal, &pair, Question::of(root)))?;
    let mut fields = vec![
        ("root", Json::Number(root)),
        ("offset", Json::Number(offset)),
        ("size", Json::Number(size)),
    ];
    match words.file(1) {
        Some(path) => {
            source.save(&path, &mut head.take(size))?;
            let words = format!("{} to {}", counted(size, "byte"), path.display());
            Ok(Answer::line(words, fields).done(WRITTEN))
        }
        None if words.flag("--json") => {
            let mut bytes = vec![0; size as usize];
            head.next(&mut bytes);
            fields.push(("hex", Json::hex(&bytes)));
            Ok(Answer::bytes(vec![], fields).needed())
        }
        None => {
            source.print(&mut head.take(size))?;
            Ok(Answer::bytes(vec![], fields))
        }
    }
}

/// A head at an offset of the blob, and how many bytes are wanted from there on,
/// by default all that follow. If the blob does not reach so far, a read where
/// they end says so.
fn part(
    pair: &Pair,
    root: u64,
    offset: u64,
    size: Option<u64>,
) -> Result<(Head<'_>, u64), Refusal> {
    let mut head = Head::open(&pair.pool, &pair.records, root)?;
    let end = offset.saturating_add(size.unwrap_or(0));
    if end > head.length() {
        tjornsaki::read(&pair.pool, &pair.records, root, end, &mut [])?;
    }
    skip(&mut head, offset);
    let size = size.unwrap_or_else(|| head.remaining());
    Ok((head, size))
}

/// Lets the bytes before an offset go by.
fn skip(head: &mut Head<'_>, offset: u64) {
    let mut piece = [0; 1024];
    while head.place() < offset {
        let size = piece.len().min((offset - head.place()) as usize);
        head.next(&mut piece[..size]);
    }
}

pub fn show(words: &Words, source: &dyn Source) -> Result<Answer, Failure> {
    let (root, leaf) = (words.number(0)?, words.number(1)?);
    let pair = source.load()?;
    let bytes = tjornsaki::show(&pair.pool, &pair.records, root, leaf);
    let bytes = bytes.map_err(|refusal| explained(refusal, &pair, Question::of(root)))?;
    let fields = vec![
        ("root", Json::Number(root)),
        ("leaf", Json::Number(leaf)),
        ("offset", Json::Number(leaf * LEAF_BYTES)),
        ("size", Json::Number(bytes.len() as u64)),
        ("hex", Json::hex(bytes)),
    ];
    Ok(Answer::bytes(bytes.to_vec(), fields).needed())
}

pub fn audit(source: &dyn Source) -> Result<Answer, Failure> {
    let pair = source.load()?;
    let live = tjornsaki::audit(&pair.pool, &pair.records)?;
    let slots = (pair.pool.len() / BLOCK_BYTES) as u64;
    let fields = vec![("live", Json::Number(live)), ("slots", Json::Number(slots))];
    let slots = counted(slots, "slot");
    Ok(Answer::line(format!("sound: {live} of {slots} in use"), fields))
}

pub fn draw(words: &Words, source: &dyn Source) -> Result<Answer, Failure> {
    let pair = source.load()?;
    let svg = draw::draw(&pair.pool, &pair.records)?;
    let slots = (pair.records.len() / RECORD_BYTES) as u64;
    let mut fields = vec![("slots", Json::Number(slots))];
    match words.output("--out") {
        Some(path) => {
            source.save(&path, &mut svg.as_bytes())?;
            let words = format!("picture of {} in {}", counted(slots, "slot"), path.display());
            Ok(Answer::line(words, fields).done(WRITTEN))
        }
        None => {
            fields.push(("svg", Json::text(svg.clone())));
            Ok(Answer::bytes(svg.into_bytes(), fields))
        }
    }
}
