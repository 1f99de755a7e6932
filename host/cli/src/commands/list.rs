//! The list of blobs.

use super::Source;
use crate::answer::Answer;
use crate::failure::Failure;
use crate::json::Json;
use crate::layout::{blocks, leaves, records};
use crate::pair::Pair;
use crate::survey::{Blob, Survey};
use tjornsaki::Refusal;

pub fn list(source: &dyn Source) -> Result<Answer, Failure> {
    let pair = source.load()?;
    check_records(&pair)?;
    let records = records(&pair.records);
    let blobs = Survey::new(&pair.pool, &pair.records)?.blobs;
    let version = |blob: &Blob| records[blob.root as usize].version;
    let wide = records.len().saturating_sub(1).to_string().len().max(4);
    let head =
        format!("{:>wide$} {:>7} {:>6} {:>6}  {}", "root", "length", "leaves", "blocks", "version");
    let lines = blobs.iter().map(|blob| list_line(blob, version(blob), wide));
    let lines: Vec<String> = std::iter::once(head).chain(lines).collect();
    let rows = blobs.iter().map(|blob| list_row(blob, version(blob))).collect();
    let mut answer = Answer::line(lines.join("\n"), vec![("blobs", Json::List(rows))]);
    answer.failure = blobs.iter().find_map(|blob| blob.length.err()).map(Failure::from);
    Ok(answer)
}

/// Fails if lengths or records are wrong, also where there is no root to ask.
pub fn check_records(pair: &Pair) -> Result<(), Refusal> {
    match tjornsaki::length(&pair.pool, &pair.records, u64::MAX) {
        Err(refusal) if refusal.number < 3 => Err(refusal),
        _ => Ok(()),
    }
}

fn list_line(Blob { root, length }: &Blob, version: u64, wide: usize) -> String {
    match length {
        Ok(length) => {
            let (leaves, blocks) = (leaves(*length), blocks(leaves(*length)));
            format!("{root:>wide$} {length:>7} {leaves:>6} {blocks:>6}  {version}")
        }
        Err(refusal) => format!("{root:>wide$} {refusal}"),
    }
}

fn list_row(Blob { root, length }: &Blob, version: u64) -> Json {
    let mut row = vec![("root", Json::Number(*root)), ("version", Json::Number(version))];
    match length {
        Ok(length) => row.extend([
            ("length", Json::Number(*length)),
            ("leaves", Json::Number(leaves(*length))),
            ("blocks", Json::Number(blocks(leaves(*length)))),
        ]),
        Err(refusal) => row.extend([
            ("refusal", Json::Number(refusal.number)),
            ("words", Json::text(refusal.words())),
            ("slot", Json::slot(refusal.slot)),
        ]),
    }
    Json::Object(row)
}
