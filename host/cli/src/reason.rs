//! More about a refusal that names no slot: the root that is none, and the room
//! that is lacking.

use crate::failure::Failure;
use crate::layout::{blocks, leaves, records, usable};
use crate::pair::Pair;
use crate::wording::counted;
use tjornsaki::Refusal;

/// What was asked of the store.
#[derive(Clone, Copy, Default)]
pub struct Question {
    /// The blob; none if it is to be made.
    pub root: Option<u64>,
    /// The length that it is to have.
    pub length: u64,
    /// Whether the length may be more: the input was not read to its end.
    pub or_more: bool,
}

impl Question {
    pub fn of(root: u64) -> Question {
        Question { root: Some(root), ..Question::default() }
    }

    pub fn resize(root: u64, length: u64) -> Question {
        Question { length, ..Question::of(root) }
    }
}

/// The sentence after the refusal's number, and the facts for machines.
#[derive(Debug)]
pub struct Reason {
    pub sentence: String,
    pub facts: Vec<(&'static str, u64)>,
}

/// The refusal, with its reason where there is more to say.
pub fn explained(refusal: Refusal, pair: &Pair, question: Question) -> Failure {
    let reason = match (refusal.number, question.root) {
        (3, Some(root)) => not_a_root(pair, root),
        (11, _) => no_room(pair, question),
        _ => return Failure::Refused(refusal),
    };
    Failure::Explained(refusal, reason)
}

fn not_a_root(pair: &Pair, root: u64) -> Reason {
    let slots = records(&pair.records).len() as u64;
    let beyond = || format!(", the store has {}", counted(slots, "slot"));
    let beyond = if root < slots { String::new() } else { beyond() };
    let sentence = format!("slot {root} is not a root{beyond}; `tjornsaki ls` lists the roots");
    Reason { sentence, facts: vec![("root", root), ("slots", slots)] }
}

fn no_room(pair: &Pair, question: Question) -> Reason {
    let length = |root| tjornsaki::length(&pair.pool, &pair.records, root).ok();
    let present = question.root.and_then(length).map_or(0, |length| blocks(leaves(length)));
    let needed = blocks(leaves(question.length)).saturating_sub(present);
    let usable = usable(&records(&pair.records));
    let least = if question.or_more { "at least " } else { "" };
    let (new, slots) = (counted(needed, "new block"), counted(usable, "slot"));
    let sentence = format!("no room, {least}{new} needed and {slots} usable");
    Reason { sentence, facts: vec![("needed", needed), ("usable", usable)] }
}
