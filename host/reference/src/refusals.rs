//! "When the store says no": "Every refusal returns its number and the named
//! slot, or no slot for 1, 3, 10, 11, 12."

use std::error::Error;
use std::fmt;

#[derive(Clone, Copy, Debug, PartialEq, Eq)]
pub struct Refusal {
    pub number: u64,
    pub slot: Option<u64>,
}

/// The rows of the table, each with its number.
#[derive(Clone, Copy)]
pub(crate) enum No {
    WrongLengths = 1,
    BrokenRecord = 2,
    NotARoot = 3,
    Spoiled = 4,
    Moved = 5,
    RolledBack = 6,
    Ahead = 7,
    WrongShape = 8,
    Reintroduced = 9,
    OutOfRange = 10,
    Full = 11,
    Worn = 12,
}

impl No {
    /// The refusal that names this slot.
    pub(crate) fn naming(self, slot: usize) -> Refusal {
        Refusal { number: self as u64, slot: Some(slot as u64) }
    }

    /// The refusal that names no slot.
    pub(crate) fn plain(self) -> Refusal {
        Refusal { number: self as u64, slot: None }
    }
}

/// What each number means, from 0 on.
const MEANINGS: [&str; 13] = [
    "no refusal",
    "pool or records have a wrong length",
    "a record breaks its layout",
    "the named root is not a root",
    "a block is spoiled",
    "a block was moved",
    "a block was rolled back",
    "a block is ahead of its record",
    "a block has the wrong shape",
    "a block was reintroduced",
    "out of the blob's range",
    "not enough usable free slots",
    "a block of the blob is worn",
];

impl fmt::Display for Refusal {
    fn fmt(&self, out: &mut fmt::Formatter<'_>) -> fmt::Result {
        let meaning = MEANINGS.get(self.number as usize).unwrap_or(&"unknown");
        write!(out, "refusal {}: {}", self.number, meaning)?;
        match self.slot {
            Some(slot) => write!(out, " (slot {slot})"),
            None => Ok(()),
        }
    }
}

impl Error for Refusal {}
