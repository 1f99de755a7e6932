//! The stores that are measured: a number of slots, and what fills them.

pub const BLOCK: usize = 64;
pub const RECORD: usize = 12;
pub const LEAF: usize = 48;
const FAN_OUT: usize = 12;
/// Where in a block its own slot's number stands, and its row of children.
const OWN_SLOT: usize = 4;
const ROW: usize = 16;

/// The numbers of slots.
pub const SIZES: [usize; 4] = [16, 64, 256, 1024];

/// The length of a small blob: two leaves and a root.
const SMALL: usize = 2 * LEAF;

#[derive(Clone, Copy, PartialEq, Eq)]
pub enum Fill {
    /// One blob, the longest that fits.
    Full,
    /// As many blobs of three blocks as fit.
    Many,
    /// One blob of three blocks, all else free.
    Bare,
}

pub const FILLS: [Fill; 3] = [Fill::Full, Fill::Many, Fill::Bare];

impl Fill {
    /// The word for it in lists.
    pub fn word(self) -> &'static str {
        match self {
            Fill::Full => "full",
            Fill::Many => "many",
            Fill::Bare => "bare",
        }
    }

    /// What the page calls it.
    pub fn title(self) -> &'static str {
        match self {
            Fill::Full => "One blob that fills the pool",
            Fill::Many => "A pool full of blobs of 96 bytes",
            Fill::Bare => "One blob of 96 bytes in an empty pool",
        }
    }

    /// The length of its blob, or of each.
    pub fn length(self, slots: usize) -> usize {
        match self {
            Fill::Full => longest(slots),
            Fill::Many | Fill::Bare => SMALL,
        }
    }
}

/// The two lent slices.
#[derive(Clone, PartialEq, Eq)]
pub struct Store {
    pub pool: Vec<u8>,
    pub records: Vec<u8>,
}

impl Store {
    pub fn wiped(slots: usize) -> Store {
        let (pool, records) = tjornsaki::room(slots);
        let mut store = Store { pool, records };
        tjornsaki::wipe(&mut store.pool, &mut store.records).expect("lengths fit");
        store
    }

    /// Adds a blob of this length, with bytes that are not zero.
    pub fn add(&mut self, length: usize) -> u64 {
        let (pool, records) = (&mut self.pool, &mut self.records);
        let root = tjornsaki::create(pool, records).expect("a free slot");
        tjornsaki::resize(pool, records, root, length as u64).expect("room");
        tjornsaki::write(pool, records, root, 0, &data(length, 1)).expect("inside");
        root
    }

    /// The small blob in the first slots once more, in those after so many such
    /// blobs, as calls would make it there.
    fn repeat_first(&mut self, number: usize) {
        let (size, shift) = (blocks(SMALL), (number * blocks(SMALL)) as u32);
        self.pool.copy_within(..BLOCK * size, BLOCK * size * number);
        self.records.copy_within(..RECORD * size, RECORD * size * number);
        let blob = &mut self.pool[BLOCK * size * number..][..BLOCK * size];
        // Each block's own number, and the two children in the root's row.
        for at in [OWN_SLOT, ROW, ROW + 4, BLOCK + OWN_SLOT, 2 * BLOCK + OWN_SLOT] {
            let slot = u32::from_le_bytes([blob[at], blob[at + 1], blob[at + 2], blob[at + 3]]);
            blob[at..at + 4].copy_from_slice(&(slot + shift).to_le_bytes());
        }
    }

    /// Becomes the same as another of as many slots.
    pub fn refresh(&mut self, from: &Store) {
        self.pool.copy_from_slice(&from.pool);
        self.records.copy_from_slice(&from.records);
    }
}

/// A store of this fill with at least `spare` free slots, and the root that a
/// call names.
pub fn store(fill: Fill, slots: usize, spare: usize) -> (Store, u64, usize) {
    let mut store = Store::wiped(slots);
    let length = fill.length(slots - spare);
    let first = store.add(length);
    if fill != Fill::Many {
        return (store, first, length);
    }
    let count = (slots - spare) / blocks(SMALL);
    (1..count).for_each(|number| store.repeat_first(number));
    (store, (count / 2 * blocks(SMALL)) as u64, length)
}

/// The longest blob that this many slots can hold, in whole leaves.
fn longest(slots: usize) -> usize {
    let fits = |leaves: &usize| blocks(leaves * LEAF) <= slots;
    (1..=slots).rev().find(fits).unwrap_or(1) * LEAF
}

/// How many blocks a blob of this length has.
pub fn blocks(length: usize) -> usize {
    let mut row = ((length + LEAF - 1) / LEAF).max(1);
    let mut total = row;
    while row > 1 {
        row = (row + FAN_OUT - 1) / FAN_OUT;
        total += row;
    }
    total
}

/// The height of the root of a blob of this length.
pub fn height(length: usize) -> usize {
    let mut row = (length + LEAF - 1) / LEAF;
    let mut height = 0;
    while row > 1 {
        row = (row + FAN_OUT - 1) / FAN_OUT;
        height += 1;
    }
    height
}

/// Bytes to write, none of them zero.
pub fn data(length: usize, seed: u8) -> Vec<u8> {
    (0..length).map(|at| (at % 100) as u8 + seed).collect()
}

#[cfg(test)]
mod tests {
    use super::*;

    /// Made by calls a pool full of small blobs takes too long if it is large.
    #[test]
    fn a_blob_that_is_repeated_is_as_calls_make_it() {
        let (repeated, root, length) = store(Fill::Many, 64, 1);
        let mut called = Store::wiped(64);
        let roots: Vec<u64> = (0..21).map(|_| called.add(length)).collect();
        assert!(repeated == called);
        assert_eq!((root, length), (roots[10], 96));
    }

    #[test]
    fn heights_are_least() {
        let leaves = [1, 2, 12, 13, 144, 145, 1728, 1729, 20_736, 20_737, 60_072];
        assert_eq!(leaves.map(|count| height(count * LEAF)), [0, 1, 1, 2, 2, 3, 3, 4, 4, 5, 5]);
        assert_eq!((longest(65_536) / LEAF, blocks(longest(65_536))), (60_072, 65_535));
    }
}
