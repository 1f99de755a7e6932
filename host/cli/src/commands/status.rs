//! How full a store is, by its records alone.

use super::list::check_records;
use super::Source;
use crate::answer::Answer;
use crate::failure::Failure;
use crate::json::Json;
use crate::layout::{largest, records, usable, worn, Record, State};

pub fn status(source: &dyn Source) -> Result<Answer, Failure> {
    let pair = source.load()?;
    check_records(&pair)?;
    let records = records(&pair.records);
    let count = |wanted: &dyn Fn(&Record) -> bool| {
        records.iter().filter(|record| wanted(record)).count() as u64
    };
    let free = count(&|record| record.state == State::Free);
    let free_worn = free - usable(&records);
    let in_use_worn = count(&|record| record.state != State::Free && worn(record.version));
    let blobs = count(&|record| record.state == State::Root);
    let (slots, largest) = (records.len() as u64, largest(usable(&records)));
    let wide = largest.map_or(0, |length| length.to_string().len()).max(5);
    let lines = [
        format!("slots            {slots:>wide$}"),
        format!("in use           {:>wide$}", slots - free),
        format!("  of these worn  {in_use_worn:>wide$}"),
        format!("free             {free:>wide$}"),
        format!("  of these worn  {free_worn:>wide$}"),
        format!("blobs            {blobs:>wide$}"),
        match largest {
            Some(length) => format!("largest new blob {length:>wide$} bytes"),
            None => "largest new blob  none".into(),
        },
    ];
    let fields = vec![
        ("slots", Json::Number(slots)),
        ("in_use", Json::Number(slots - free)),
        ("in_use_worn", Json::Number(in_use_worn)),
        ("free", Json::Number(free)),
        ("free_worn", Json::Number(free_worn)),
        ("blobs", Json::Number(blobs)),
        ("largest", largest.map_or(Json::Null, Json::Number)),
    ];
    Ok(Answer::line(lines.join("\n"), fields))
}
