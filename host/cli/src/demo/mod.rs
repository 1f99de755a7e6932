//! Three nights with a carrier that does not hand back what it was given,
//! told for someone who sees this for the first time. What this store does is
//! shown by commands on the demo's own files, and they answer themselves.

mod desk;
mod folder;
mod nights;
mod plain;
mod rig;
mod tale;

use crate::answer::Answer;
use crate::failure::Failure;
use crate::json::Json;
use desk::Typed;
use nights::{nights, Night};
use rig::Rig;
use std::path::Path;

/// Plays the nights, and writes pictures and files to a folder if one is named.
pub fn demo(folder: Option<&Path>) -> Result<Answer, Failure> {
    let rig = Rig::new()?;
    let nights = nights(&rig);
    let mut words = vec![tale::opening(&rig)?];
    let mut rows = Vec::new();
    for night in &nights {
        let typed = typed(night)?;
        words.push(tale::night(night, &typed));
        rows.push(row(night, &typed));
    }
    words.push(tale::ending(&rig)?);
    if let Some(folder) = folder {
        folder::fill(folder, &rig.last_week, None)?;
        folder::fill(folder, &rig.now, Some("Before the nights: the store is sound"))?;
        for night in &nights {
            folder::fill(folder, &night.store, Some(night.title))?;
        }
    }
    Ok(Answer::line(words.join("\n\n"), vec![("nights", Json::List(rows))]))
}

/// The night's commands. A demo that does not go as it is told is a fault of
/// the program.
fn typed(night: &Night) -> Result<Vec<Typed>, Failure> {
    let mut all = Vec::new();
    for (command, status) in night.commands {
        let typed = Typed::new(command, &night.store)?;
        if typed.status != *status {
            let words = format!("night of the {} block: {}", night.name, typed.shown());
            return Err(Failure::internal(words));
        }
        all.push(typed);
    }
    Ok(all)
}

fn row(night: &Night, typed: &[Typed]) -> Json {
    Json::Object(vec![
        ("block", Json::text(night.name)),
        ("without_versions", Json::text(night.without_versions())),
        ("commands", Json::List(typed.iter().map(Typed::row).collect())),
    ])
}
