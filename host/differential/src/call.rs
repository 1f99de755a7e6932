//! The calls as data, and the refusals that each can give.

use crate::chance::Chance;
use crate::layout::LEAF;

/// One call with all its arguments but the two lent slices and the head.
#[derive(Clone, Copy, Debug, PartialEq, Eq)]
pub enum Call {
    Wipe,
    Create,
    Length {
        root: u64,
    },
    Read {
        root: u64,
        offset: u64,
        size: usize,
    },
    Write {
        root: u64,
        offset: u64,
        size: usize,
        fill: u64,
    },
    Resize {
        root: u64,
        length: u64,
    },
    Delete {
        root: u64,
    },
    Show {
        root: u64,
        leaf: u64,
    },
    Audit,
    OpenHead {
        root: u64,
    },
    /// Asks the head of the bench for so many bytes.
    Next {
        size: usize,
    },
    /// Opens a head and asks it for so many bytes at a time, at least one, until
    /// it hands out none.
    Scan {
        root: u64,
        size: usize,
    },
}

/// A kind of call: its name, and the numbers of the refusals that it can give.
pub struct Kind {
    pub name: &'static str,
    pub refusals: &'static [u64],
}

pub const KINDS: [Kind; 12] = [
    Kind { name: "wipe", refusals: &[1] },
    Kind { name: "create", refusals: &[1, 2, 4, 5, 6, 7, 8, 9, 11] },
    Kind { name: "length", refusals: &[1, 2, 3, 4, 5, 6, 7, 8, 9] },
    Kind { name: "read", refusals: &[1, 2, 3, 4, 5, 6, 7, 8, 9, 10] },
    Kind { name: "write", refusals: &[1, 2, 3, 4, 5, 6, 7, 8, 9, 10, 12] },
    Kind { name: "resize", refusals: &[1, 2, 3, 4, 5, 6, 7, 8, 9, 11, 12] },
    Kind { name: "delete", refusals: &[1, 2, 3, 4, 5, 6, 7, 8, 9] },
    Kind { name: "show", refusals: &[1, 2, 3, 4, 5, 6, 7, 8, 9, 10] },
    Kind { name: "audit", refusals: &[1, 2, 4, 5, 6, 7, 8, 9] },
    Kind { name: "open", refusals: &[1, 2, 3, 4, 5, 6, 7, 8, 9] },
    Kind { name: "next", refusals: &[] },
    Kind { name: "scan", refusals: &[1, 2, 3, 4, 5, 6, 7, 8, 9] },
];

impl Call {
    /// The call's row in `KINDS`.
    pub fn kind(&self) -> usize {
        match self {
            Call::Wipe => 0,
            Call::Create => 1,
            Call::Length { .. } => 2,
            Call::Read { .. } => 3,
            Call::Write { .. } => 4,
            Call::Resize { .. } => 5,
            Call::Delete { .. } => 6,
            Call::Show { .. } => 7,
            Call::Audit => 8,
            Call::OpenHead { .. } => 9,
            Call::Next { .. } => 10,
            Call::Scan { .. } => 11,
        }
    }

    /// How many bytes of output are lent. A scan gets one more than so many
    /// slots can hold, so that its last asking is for some bytes too.
    pub fn output_size(&self, slots: usize) -> usize {
        match self {
            Call::Read { size, .. } | Call::Next { size } => *size,
            Call::Scan { .. } => LEAF * slots + 1,
            _ => 0,
        }
    }

    /// The bytes that the call writes.
    pub fn data(&self) -> Vec<u8> {
        match self {
            Call::Write { size, fill, .. } => filling(*fill, *size),
            _ => Vec::new(),
        }
    }
}

/// One byte over and over for a fill below 256, otherwise bytes by chance.
fn filling(fill: u64, size: usize) -> Vec<u8> {
    if fill < 256 {
        return vec![fill as u8; size];
    }
    let mut chance = Chance::new(fill);
    (0..size).map(|_| chance.number() as u8).collect()
}
