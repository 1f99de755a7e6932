//! Where things lie in the bytes of a store, for those who spoil it.

pub const BLOCK: usize = 64;
pub const RECORD: usize = 12;
/// Where a block's payload starts.
pub const PAYLOAD: usize = 16;
/// How many bytes a leaf has room for.
pub const LEAF: usize = 48;

pub const FREE: u8 = 0;
pub const PART: u8 = 1;
pub const ROOT: u8 = 2;

/// A look at the bytes of a store.
#[derive(Clone, Copy)]
pub struct View<'a> {
    pub pool: &'a [u8],
    pub records: &'a [u8],
}

impl<'a> View<'a> {
    pub fn slots(&self) -> usize {
        self.pool.len() / BLOCK
    }

    pub fn block(&self, slot: usize) -> &'a [u8] {
        &self.pool[slot * BLOCK..(slot + 1) * BLOCK]
    }

    pub fn state(&self, slot: usize) -> u8 {
        self.records[slot * RECORD + 2]
    }

    pub fn version(&self, slot: usize) -> u64 {
        number(&self.records[slot * RECORD + 4..(slot + 1) * RECORD])
    }

    pub fn height(&self, slot: usize) -> u8 {
        self.block(slot)[2]
    }

    pub fn count(&self, slot: usize) -> u8 {
        self.block(slot)[3]
    }

    /// The children that the block's bytes name, at most 12; a leaf has none.
    pub fn children(&self, slot: usize) -> Vec<usize> {
        if self.height(slot) == 0 {
            return Vec::new();
        }
        let row = self.block(slot)[PAYLOAD..].chunks(4).take(usize::from(self.count(slot)));
        row.map(|four| number(four) as usize).collect()
    }

    /// The slots of this kind.
    pub fn slots_where(&self, is_one: impl Fn(usize) -> bool) -> Vec<usize> {
        (0..self.slots()).filter(|slot| is_one(*slot)).collect()
    }

    pub fn roots(&self) -> Vec<usize> {
        self.slots_where(|slot| self.state(slot) == ROOT)
    }

    pub fn live(&self) -> Vec<usize> {
        self.slots_where(|slot| matches!(self.state(slot), PART | ROOT))
    }

    pub fn inner(&self) -> Vec<usize> {
        let is_inner = |slot| self.state(slot) != FREE && self.height(slot) > 0;
        self.slots_where(|slot| is_inner(slot) && self.count(slot) > 0)
    }

    pub fn free(&self) -> Vec<usize> {
        self.slots_where(|slot| self.state(slot) == FREE)
    }

    /// The blob's blocks in walk order. The store is sound.
    pub fn blob(&self, root: usize) -> Vec<usize> {
        let mut blocks = vec![root];
        for child in self.children(root) {
            blocks.extend(self.blob(child));
        }
        blocks
    }
}

/// Lets two slots change places everywhere: blocks, records, own numbers and
/// the links of all rows. What is sound stays sound.
pub fn exchange(pool: &mut [u8], records: &mut [u8], one: usize, other: usize) {
    for at in 0..BLOCK {
        pool.swap(one * BLOCK + at, other * BLOCK + at);
    }
    for at in 0..RECORD {
        records.swap(one * RECORD + at, other * RECORD + at);
    }
    for block in pool.chunks_mut(BLOCK).filter(|block| block[0..2] == [0x4C, 0x31]) {
        exchange_number(&mut block[4..8], one, other);
        if block[2] > 0 {
            let used = 4 * usize::from(block[3]).min(12);
            let row = block[PAYLOAD..PAYLOAD + used].chunks_mut(4);
            row.for_each(|four| exchange_number(four, one, other));
        }
    }
}

fn exchange_number(four: &mut [u8], one: usize, other: usize) {
    let now = number(four) as usize;
    let then = match now {
        _ if now == one => other,
        _ if now == other => one,
        _ => now,
    };
    four.copy_from_slice(&(then as u32).to_le_bytes());
}

fn number(bytes: &[u8]) -> u64 {
    bytes.iter().rev().fold(0, |number, byte| number << 8 | u64::from(*byte))
}

/// The block total of a length, of 48 bytes a leaf and 12 children a row.
pub fn blocks_of(length: u64) -> u64 {
    let mut row = (length / 48 + u64::from(length % 48 != 0)).max(1);
    let mut total = row;
    while row > 1 {
        row = row / 12 + u64::from(row % 12 != 0);
        total += row;
    }
    total
}
