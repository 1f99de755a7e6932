//! The bytes of blocks and records. Nothing here decides whether a block is
//! good: the library does, and `survey` goes on where the library stops.

use tjornsaki::{BLOCK_BYTES, RECORD_BYTES};

/// The bytes of a leaf.
pub const LEAF_BYTES: u64 = 48;
/// The children of an inner block.
pub const FAN_OUT: u64 = 12;

const HEAD: usize = 16;
const CHILD_BYTES: usize = 4;

#[derive(Clone, Copy, Debug, PartialEq, Eq)]
pub enum State {
    Free,
    Part,
    Root,
    Broken,
}

#[derive(Clone, Copy, Debug)]
pub struct Record {
    pub state: State,
    pub version: u64,
}

/// Whether this version is the last: there the slot can never be written again.
pub fn worn(version: u64) -> bool {
    version == u64::MAX
}

/// The record of each slot.
pub fn records(bytes: &[u8]) -> Vec<Record> {
    bytes.chunks_exact(RECORD_BYTES).map(record).collect()
}

fn record(bytes: &[u8]) -> Record {
    let version = number(&bytes[4..12]);
    let state = match bytes[..4] {
        [0x52, 0x31, 0, 0] => State::Free,
        [0x52, 0x31, 1, 0] if version > 0 => State::Part,
        [0x52, 0x31, 2, 0] if version > 0 => State::Root,
        _ => State::Broken,
    };
    Record { state, version }
}

/// A block as it lies in the pool, whoever wrote it.
#[derive(Clone, Copy)]
pub struct Block<'a> {
    bytes: &'a [u8],
}

/// The block of a slot, if the pool has the slot.
pub fn block(pool: &[u8], slot: usize) -> Option<Block<'_>> {
    pool.chunks_exact(BLOCK_BYTES).nth(slot).map(|bytes| Block { bytes })
}

impl<'a> Block<'a> {
    pub fn marked(&self) -> bool {
        self.bytes[..2] == [0x4c, 0x31]
    }

    pub fn height(&self) -> u8 {
        self.bytes[2]
    }

    /// How many bytes or children it says that it has.
    pub fn count(&self) -> u8 {
        self.bytes[3]
    }

    pub fn slot(&self) -> u64 {
        number(&self.bytes[4..8])
    }

    pub fn version(&self) -> u64 {
        number(&self.bytes[8..HEAD])
    }

    /// Whether all its bytes are zero.
    pub fn blank(&self) -> bool {
        self.bytes.iter().all(|byte| *byte == 0)
    }

    /// Whether the payload is zero after what the count says is used.
    pub fn zeros_after(&self) -> bool {
        let each = if self.height() == 0 { 1 } else { CHILD_BYTES };
        let used = usize::from(self.count()) * each;
        self.bytes[HEAD..].iter().skip(used).all(|byte| *byte == 0)
    }

    /// The bytes of a leaf.
    pub fn data(&self) -> &'a [u8] {
        let size = usize::from(self.count()).min(LEAF_BYTES as usize);
        &self.bytes[HEAD..HEAD + size]
    }

    /// The slots in the row of an inner block.
    pub fn children(&self) -> Vec<usize> {
        let count = usize::from(self.count()).min(FAN_OUT as usize);
        let row = self.bytes[HEAD..].chunks_exact(CHILD_BYTES).take(count);
        row.map(|child| number(child) as usize).collect()
    }
}

fn number(bytes: &[u8]) -> u64 {
    bytes.iter().rev().fold(0, |number, byte| number << 8 | u64::from(*byte))
}

/// The slots whose records say root.
pub fn roots(records: &[Record]) -> Vec<u64> {
    let slots = (0u64..).zip(records);
    slots.filter(|(_, record)| record.state == State::Root).map(|(slot, _)| slot).collect()
}

/// How many free slots can still be taken.
pub fn usable(records: &[Record]) -> u64 {
    let usable = |record: &&Record| record.state == State::Free && !worn(record.version);
    records.iter().filter(usable).count() as u64
}

/// How many leaves a blob of this length has.
pub fn leaves(length: u64) -> u64 {
    rounded_up(length, LEAF_BYTES).max(1)
}

/// The length of a blob that is sound, by the blocks of its right edge.
pub fn length(pool: &[u8], slot: usize) -> Option<u64> {
    let block = block(pool, slot)?;
    let row = block.children();
    match (block.height(), row.split_last()) {
        (0, _) => Some(block.count().into()),
        (height, Some((last, full))) => {
            let each = FAN_OUT.checked_pow(u32::from(height) - 1)? * LEAF_BYTES;
            Some(full.len() as u64 * each + length(pool, *last)?)
        }
        _ => None,
    }
}

/// How many blocks a blob with so many leaves has.
pub fn blocks(leaves: u64) -> u64 {
    match leaves {
        1 => 1,
        _ => leaves + blocks(rounded_up(leaves, FAN_OUT)),
    }
}

/// The length of the largest blob that fits into so many slots.
pub fn largest(slots: u64) -> Option<u64> {
    let fitting = (1..).take_while(|leaves| blocks(*leaves) <= slots);
    fitting.last().map(|leaves: u64| leaves * LEAF_BYTES)
}

fn rounded_up(number: u64, by: u64) -> u64 {
    number / by + u64::from(number % by != 0)
}

#[cfg(test)]
mod tests {
    use super::*;

    #[test]
    fn blocks_by_length() {
        let lengths = [0, 48, 49, 576, 577, 6_912, 6_913, 44_976, 44_977, 2_883_456, 2_883_457];
        let counts = [1, 1, 3, 13, 16, 157, 161, 1_024, 1_025, 65_535, 65_537];
        assert_eq!(lengths.map(|length| blocks(leaves(length))), counts);
    }

    #[test]
    fn lengths_by_slots() {
        assert_eq!(largest(0), None);
        // To 1,024 all of them; of the larger ones those about a height, and the most.
        let larger = [1_885, 1_886, 1_890, 22_621, 22_627, 65_534, 65_535, 65_536];
        for slots in (1..=1_024).chain(larger) {
            let length = largest(slots).unwrap();
            assert!(blocks(leaves(length)) <= slots && slots < blocks(leaves(length + 1)));
        }
    }

    /// The right edge says what the library says.
    #[test]
    fn lengths_by_the_right_edge() {
        let (mut pool, mut records) = tjornsaki::room(tjornsaki::MOST_SLOTS);
        tjornsaki::wipe(&mut pool, &mut records).unwrap();
        let root = tjornsaki::create(&mut pool, &mut records).unwrap();
        for size in [0, 1, 48, 49, 576, 577, 82_944, 82_945, 995_329, 2_883_456, 2_000_000] {
            tjornsaki::resize(&mut pool, &mut records, root, size).unwrap();
            assert_eq!(length(&pool, root as usize), Some(size));
        }
    }
}
