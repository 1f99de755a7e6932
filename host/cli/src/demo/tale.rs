//! The words of the demo.

use super::desk::{Store, Typed};
use super::nights::Night;
use super::rig::{Rig, LIST, WITHDRAWN};
use crate::failure::Failure;
use crate::layout::block;
use crate::wording::listed;

/// The rig, the carrier, and two weeks.
pub fn opening(rig: &Rig) -> Result<String, Failure> {
    let root = block(&rig.now.pool.1, LIST as usize);
    let lines = root.map_or(vec![], |root| root.children());
    let lines: Vec<u64> = lines.into_iter().map(|slot| slot as u64).collect();
    Ok(format!(
        "A test rig files the signatures of crashes in a list. The list is cut into\n\
         small blocks, and a carrier, rented storage, keeps them: the pool. The rig\n\
         itself keeps a version number for each slot of the pool: the records.\n\
         \n\
         Last week the list was blob {LIST}, and blob {WITHDRAWN}, a second list, said to ignore e3b8:\n\n{}\n\n\
         This week a41f turned out to eat data, 90d5 is new, and the second list was\n\
         withdrawn and deleted:\n\n{}\n\n\
         The list has its root in slot {LIST} and its lines in slots {}. Slot {WITHDRAWN}\n\
         held the second list and is free.",
        shown(&["get 0", "get 4"], &rig.last_week)?,
        shown(&["get 0", "audit"], &rig.now)?,
        listed(&lines, "and"),
    ))
}

/// Commands on a store, each with its answer.
fn shown(commands: &[&str], store: &Store) -> Result<String, Failure> {
    let typed: Result<Vec<Typed>, Failure> =
        commands.iter().map(|command| Typed::new(command, store)).collect();
    Ok(one_by_one(&typed?))
}

fn one_by_one(typed: &[Typed]) -> String {
    typed.iter().map(Typed::shown).collect::<Vec<_>>().join("\n\n")
}

pub fn night(night: &Night, typed: &[Typed]) -> String {
    let (first, rest) = night.title.split_once(':').unwrap_or((night.title, ""));
    let (title, told, signature) = (first.to_uppercase(), night.told, night.asked.1);
    format!(
        "{title}:{rest}\n\n{told}\nA crash with the signature {signature} comes in; the rig looks it up.\n\n  \
         A store without versions:  {}\n                             {}\n  \
         This store:\n\n{}\n\n  {}",
        night.without_versions(),
        night.harm,
        one_by_one(typed),
        night.why,
    )
}

/// The genuine blocks again, and where all this can be tried.
pub fn ending(rig: &Rig) -> Result<String, Failure> {
    Ok(format!(
        "THE MORNING AFTER\n\nA refusal changes nothing. The carrier hands back the right blocks:\n\n{}\n\n\
         TRY IT\n\nThe files that are named here are those that `tjornsaki demo --out FOLDER`\n\
         leaves in FOLDER, with a picture of each night: night-1.svg to night-3.svg, and\n\
         night-0.svg before them. There every command above answers as it is shown.",
        shown(&["audit", "length 0"], &rig.now)?,
    ))
}
