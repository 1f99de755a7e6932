//! "The walk": the blob check and the pool check.

use crate::bytes::{block_bytes, decode_block, Block, Content, Record, State};
use crate::bytes::{BLOCK_MARK, FAN_OUT, LEAF_BYTES};
use crate::faults::{planted, Fault};
use crate::refusals::{No, Refusal};

/// "a root's [height is] at most 5"
pub const HIGHEST_ROOT: u8 = 5;

/// What a walk from one root found, all of it checked.
pub struct Blob {
    pub root: usize,
    /// Every block of the blob in walk order, the root first.
    pub blocks: Vec<usize>,
    /// The leaves' slots from left to right.
    pub leaves: Vec<usize>,
    pub length: u64,
}

/// Where the walk stands; it decides which height and counts are allowed.
#[derive(Clone, Copy)]
enum Place {
    Root,
    Child { height: u8, on_right_edge: bool },
}

impl Place {
    /// "The root is on the right edge"
    fn on_right_edge(self) -> bool {
        match self {
            Place::Root => true,
            Place::Child { on_right_edge, .. } => on_right_edge,
        }
    }

    fn allows_height(self, found: u8) -> bool {
        match self {
            Place::Root => found <= highest_root(),
            Place::Child { height, .. } => found == height,
        }
    }

    /// "Off the right edge a leaf has 48 bytes and an inner block 12 children.
    /// On it, a root leaf has 0 to 48, another leaf 1 to 48, an inner root 2
    /// to 12 children, another inner block 1 to 12."
    fn allows_count(self, content: &Content) -> bool {
        let most = if content.is_leaf() { LEAF_BYTES } else { FAN_OUT };
        let least = match self {
            Place::Root if content.is_leaf() => 0,
            Place::Root => 2,
            Place::Child { .. } if self.on_right_edge() => 1,
            Place::Child { .. } => most,
        };
        (least..=most).contains(&usize::from(content.count))
    }
}

/// The greatest height of a root, but for planted bugs.
fn highest_root() -> u8 {
    let less = u8::from(planted(Fault::OneHeightLess));
    HIGHEST_ROOT - less + u8::from(planted(Fault::OneHeightMore))
}

/// "The blob check is the walk from one root." It has its own visited set.
pub fn blob_check(pool: &[u8], records: &[Record], root: usize) -> Result<Blob, Refusal> {
    let mut visited = vec![false; records.len()];
    walk_from(pool, records, &mut visited, root)
}

/// "The pool check walks from each root record in rising slot order, with one
/// shared set of visited slots; then goes through all slots rising".
pub fn pool_check(pool: &[u8], records: &[Record]) -> Result<Vec<Blob>, Refusal> {
    let mut visited = vec![false; records.len()];
    let mut blobs = Vec::new();
    for (slot, record) in records.iter().enumerate() {
        if record.state == State::Root {
            blobs.push(match planted(Fault::VisitedNotShared) {
                false => walk_from(pool, records, &mut visited, slot)?,
                true => walk_apart(pool, records, &mut visited, slot)?,
            });
        }
    }
    if planted(Fault::NoClosingPass) {
        return Ok(blobs);
    }
    closing_pass(pool, records, &visited)?;
    Ok(blobs)
}

/// "a free slot with a non-zero byte is 9, a part not visited is 8, each
/// naming that slot": one pass with both rules (reading 4).
fn closing_pass(pool: &[u8], records: &[Record], visited: &[bool]) -> Result<(), Refusal> {
    for (slot, record) in records.iter().enumerate() {
        let has_bytes = || block_bytes(pool, slot).iter().any(|byte| *byte != 0);
        if record.state == State::Free && has_bytes() {
            return Err(No::Reintroduced.naming(slot));
        }
        if record.state == State::Part && !visited[slot] {
            return Err(No::WrongShape.naming(slot));
        }
    }
    Ok(())
}

fn walk_from(
    pool: &[u8],
    records: &[Record],
    visited: &mut [bool],
    root: usize,
) -> Result<Blob, Refusal> {
    let found = Blob { root, blocks: Vec::new(), leaves: Vec::new(), length: 0 };
    let mut walk = Walk { pool, records, visited, found };
    walk.visit_block(root, Place::Root)?;
    Ok(walk.found)
}

/// For the planted bug only: a walk that does not see what others have visited.
fn walk_apart(
    pool: &[u8],
    records: &[Record],
    visited: &mut [bool],
    root: usize,
) -> Result<Blob, Refusal> {
    let blob = blob_check(pool, records, root)?;
    blob.blocks.iter().for_each(|slot| visited[*slot] = true);
    Ok(blob)
}

struct Walk<'a> {
    pool: &'a [u8],
    records: &'a [Record],
    visited: &'a mut [bool],
    found: Blob,
}

impl Walk<'_> {
    /// "A block is visited, then its children in row order, each with all
    /// below it." It counts as visited from here on (reading 1).
    fn visit_block(&mut self, slot: usize, place: Place) -> Result<(), Refusal> {
        self.visited[slot] = true;
        let block = decode_block(self.pool, slot);
        check_identity(slot, &block, &self.records[slot])?;
        check_shape(slot, &block.content, place)?;
        self.found.blocks.push(slot);
        if block.content.is_leaf() {
            self.found.leaves.push(slot);
            self.found.length += u64::from(block.content.count);
            return Ok(());
        }
        self.visit_row(slot, &block.content, place.on_right_edge())
    }

    /// "to visit a row is to visit blocks one height lower". Each child's
    /// check 1 belongs to its own visit (reading 2).
    fn visit_row(&mut self, parent: usize, row: &Content, edge: bool) -> Result<(), Refusal> {
        if planted(Fault::RowCheckedFirst) {
            row.children().try_for_each(|link| self.check_link(parent, link).map(drop))?;
        }
        for (index, link) in row.children().enumerate() {
            let child = self.check_link(parent, link)?;
            // "so is the last child of an inner block on the right edge"
            let on_right_edge = edge && index + 1 == usize::from(row.count);
            self.visit_block(child, Place::Child { height: row.height - 1, on_right_edge })?;
        }
        Ok(())
    }

    /// Check 1: "For a child slot: not below N, state root, or already visited
    /// in this call: 8, naming the parent. State free: 9, naming the child."
    fn check_link(&self, parent: usize, link: u32) -> Result<usize, Refusal> {
        let child = match planted(Fault::ShortSlotNumbers) {
            false => link as usize,
            true => link as usize % (1 << 16),
        };
        if child == self.records.len() && planted(Fault::ChildAtN) {
            return Err(No::Reintroduced.naming(child));
        }
        let record = self.records.get(child).ok_or(No::WrongShape.naming(parent))?;
        match record.state {
            State::Root => Err(No::WrongShape.naming(parent)),
            _ if self.visited[child] => Err(No::WrongShape.naming(parent)),
            State::Free => Err(No::Reintroduced.naming(child)),
            State::Part => Ok(child),
        }
    }
}

/// Check 2: "Mark wrong: 4. Own slot number wrong: 5. Version below the
/// record: 6; above it: 7."
fn check_identity(slot: usize, block: &Block, record: &Record) -> Result<(), Refusal> {
    if block.mark != BLOCK_MARK {
        return Err(No::Spoiled.naming(slot));
    }
    if block.own_slot as usize != slot {
        return Err(No::Moved.naming(slot));
    }
    if block.version < record.version {
        return Err(No::RolledBack.naming(slot));
    }
    if block.version > record.version {
        return Err(No::Ahead.naming(slot));
    }
    Ok(())
}

/// Check 3: "Height (a root's at most 5, a child's one less than its
/// parent's), count, or a non-zero byte after the used payload: 8."
fn check_shape(slot: usize, content: &Content, place: Place) -> Result<(), Refusal> {
    let zeros_after = || content.payload.iter().skip(content.used_bytes()).all(|byte| *byte == 0);
    if place.allows_height(content.height) && place.allows_count(content) && zeros_after() {
        Ok(())
    } else {
        Err(No::WrongShape.naming(slot))
    }
}
