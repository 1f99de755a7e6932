//! The walk through the blocks of a blob, on past what is bad.

use super::refused;
use crate::layout::{block, Block, Record, State, FAN_OUT, LEAF_BYTES};
use tjornsaki::Refusal;

/// The heights of a root, and of a block below one.
const HIGHEST_ROOT: u8 = 5;
const HIGHEST_PART: u8 = HIGHEST_ROOT - 1;

/// Where a block stands, as far as that is known.
#[derive(Clone, Copy)]
enum Place {
    Root,
    /// `edge`: whether it may lie on the right edge.
    Child {
        height: u8,
        edge: bool,
    },
    /// Below some block that is bad.
    CutOff,
}

impl Place {
    fn edge(self) -> bool {
        match self {
            Place::Child { edge, .. } => edge,
            _ => true,
        }
    }

    fn allows_height(self, found: u8) -> bool {
        match self {
            Place::Root => found <= HIGHEST_ROOT,
            Place::Child { height, .. } => found == height,
            Place::CutOff => found <= HIGHEST_PART,
        }
    }

    fn allows_count(self, leaf: bool, count: u8) -> bool {
        let most = if leaf { LEAF_BYTES } else { FAN_OUT };
        let least = match self {
            Place::Root if leaf => 0,
            Place::Root => 2,
            _ if self.edge() => 1,
            _ => most,
        };
        (least..=most).contains(&u64::from(count))
    }

    /// Whether there may be blocks below it.
    fn may_lead_on(self) -> bool {
        !matches!(self, Place::Child { height: 0, .. })
    }
}

/// What one walk finds.
#[derive(Default)]
pub struct Walk {
    /// In the order of the walk, and so are the others.
    pub visited: Vec<usize>,
    pub faults: Vec<Refusal>,
    /// Parents and children whose rows were followed.
    pub links: Vec<(usize, usize)>,
    /// Whether a part of the blob is missing because of a fault above it.
    pub cut: bool,
}

/// Walks through one blob after the other. The set of visited slots is one row of
/// numbers for all walks: a walk takes as long as its blob, not as the store.
pub struct Walker<'a> {
    pool: &'a [u8],
    records: &'a [Record],
    /// The number of the walk that visited the slot last.
    marks: Vec<u64>,
    number: u64,
    walk: Walk,
}

impl<'a> Walker<'a> {
    pub fn new(pool: &'a [u8], records: &'a [Record]) -> Walker<'a> {
        let marks = vec![0; records.len()];
        Walker { pool, records, marks, number: 0, walk: Walk::default() }
    }

    /// From one root, with a set of visited slots of its own.
    pub fn blob(&mut self, root: usize) -> Walk {
        self.number += 1;
        self.visit(root, Place::Root);
        std::mem::take(&mut self.walk)
    }

    /// Through all parts that no blob reaches, the highest first, so that a
    /// block is found by the row above it where there is one.
    pub fn cut_off(&mut self, reached: &[bool]) -> Walk {
        self.number += 1;
        let slots = (0..reached.len()).filter(|slot| reached[*slot]);
        slots.for_each(|slot| self.marks[slot] = self.number);
        let heights = (0..=HIGHEST_PART).rev().map(Some);
        for height in heights.chain([None]) {
            for (slot, record) in self.records.iter().enumerate() {
                let part = record.state == State::Part && !self.visited(slot);
                let block = if part { block(self.pool, slot) } else { None };
                let fits = |block: Block<'_>| match height {
                    Some(height) => self.known(slot, &block).is_ok() && block.height() == height,
                    None => true,
                };
                if block.map_or(false, fits) {
                    self.visit(slot, Place::CutOff);
                }
            }
        }
        std::mem::take(&mut self.walk)
    }

    fn visited(&self, slot: usize) -> bool {
        self.marks[slot] == self.number
    }

    fn visit(&mut self, slot: usize, place: Place) {
        self.marks[slot] = self.number;
        self.walk.visited.push(slot);
        match self.judged(slot, place) {
            Ok(block) if block.height() > 0 => self.visit_row(slot, &block, place.edge()),
            Ok(_) => (),
            Err(number) => {
                self.walk.faults.push(refused(number, slot));
                self.walk.cut |= place.may_lead_on();
            }
        }
    }

    fn visit_row(&mut self, parent: usize, block: &Block<'_>, edge: bool) {
        let row = block.children();
        for (place, child) in row.iter().enumerate() {
            match self.linked(parent, *child) {
                Ok(()) => {
                    self.walk.links.push((parent, *child));
                    let edge = edge && place + 1 == row.len();
                    self.visit(*child, Place::Child { height: block.height() - 1, edge });
                }
                Err(fault) => {
                    self.walk.faults.extend(fault);
                    self.walk.cut = true;
                }
            }
        }
    }

    /// Whether a child may be visited. A broken record is a fault of its own.
    fn linked(&self, parent: usize, child: usize) -> Result<(), Option<Refusal>> {
        match self.records.get(child).map(|record| record.state) {
            None | Some(State::Root) => Err(Some(refused(8, parent))),
            _ if self.visited(child) => Err(Some(refused(8, parent))),
            Some(State::Free) => Err(Some(refused(9, child))),
            Some(State::Broken) => Err(None),
            Some(State::Part) => Ok(()),
        }
    }

    /// The block if it is well, else the number of its first fault.
    fn judged(&self, slot: usize, place: Place) -> Result<Block<'a>, u64> {
        let block = block(self.pool, slot).ok_or(1u64)?;
        self.known(slot, &block)?;
        let (height, count) = (block.height(), block.count());
        let shaped = place.allows_height(height) && place.allows_count(height == 0, count);
        if shaped && block.zeros_after() {
            Ok(block)
        } else {
            Err(8)
        }
    }

    /// Whether it is the block that the record knows.
    fn known(&self, slot: usize, block: &Block<'_>) -> Result<(), u64> {
        let version = self.records[slot].version;
        match block {
            _ if !block.marked() => Err(4),
            _ if block.slot() != slot as u64 => Err(5),
            _ if block.version() < version => Err(6),
            _ if block.version() > version => Err(7),
            _ => Ok(()),
        }
    }
}
