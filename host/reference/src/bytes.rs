//! "Bytes of a block and of a record": decoding and encoding, no judgement
//! except whether a record keeps its layout. "Numbers are little-endian."

pub const BLOCK_BYTES: usize = 64;
pub const RECORD_BYTES: usize = 12;
/// "A pool has N slots of 64 bytes, N from 1 to 65,536."
pub const MOST_SLOTS: usize = 65_536;
/// "A leaf holds up to 48 bytes, an inner block up to 12 children."
pub const LEAF_BYTES: usize = 48;
pub const FAN_OUT: usize = 12;
/// "bytes 16-63" of a block are its payload.
pub const PAYLOAD_START: usize = 16;
/// "child slots of 4 bytes each"
const CHILD_BYTES: usize = 4;
/// A slot at version 2^64 - 1 is worn: there is no higher version.
pub const WORN_VERSION: u64 = u64::MAX;

pub const BLOCK_MARK: [u8; 2] = [0x4C, 0x31];
const RECORD_MARK: [u8; 2] = [0x52, 0x31];

/// What the version rule compares: "its height, count or payload".
#[derive(Clone, Copy, Debug, PartialEq, Eq)]
pub struct Content {
    pub height: u8,
    pub count: u8,
    pub payload: [u8; LEAF_BYTES],
}

impl Content {
    /// A block of this height that holds nothing yet.
    pub fn empty(height: u8) -> Content {
        Content { height, count: 0, payload: [0; LEAF_BYTES] }
    }

    pub fn is_leaf(&self) -> bool {
        self.height == 0
    }

    /// "leaf: count data bytes; inner: count child slots of 4 bytes each"
    pub fn used_bytes(&self) -> usize {
        let count = usize::from(self.count);
        if self.is_leaf() {
            count
        } else {
            count * CHILD_BYTES
        }
    }

    /// Child number `index`, from 0 to 11, as its four bytes say: whatever the
    /// count is.
    pub fn child(&self, index: usize) -> u32 {
        let start = index * CHILD_BYTES;
        let mut four = [0; CHILD_BYTES];
        four.copy_from_slice(&self.payload[start..start + CHILD_BYTES]);
        u32::from_le_bytes(four)
    }

    /// The child slots of an inner block in row order.
    pub fn children(&self) -> impl DoubleEndedIterator<Item = u32> + '_ {
        let count = usize::from(self.count).min(FAN_OUT);
        (0..count).map(move |index| self.child(index))
    }

    /// The last child's slot. A leaf, or an inner block without a child, has none.
    pub fn last_child(&self) -> Option<usize> {
        if self.is_leaf() {
            return None;
        }
        self.children().next_back().map(|slot| slot as usize)
    }

    /// Adds a child at the row's end. The caller sees to it that there is room.
    pub fn append_child(&mut self, slot: usize) {
        let start = self.used_bytes();
        self.payload[start..start + CHILD_BYTES].copy_from_slice(&(slot as u32).to_le_bytes());
        self.count += 1;
    }

    /// Takes the last child out of the row: "zeros after".
    pub fn remove_last_child(&mut self) {
        self.count = self.count.saturating_sub(1);
        let start = self.used_bytes();
        self.payload[start..].fill(0);
    }
}

/// A block as its 64 bytes say, true or not.
pub struct Block {
    pub mark: [u8; 2],
    pub own_slot: u32,
    pub version: u64,
    pub content: Content,
}

/// The 64 bytes of a slot. The slot is below N.
pub fn block_bytes(pool: &[u8], slot: usize) -> &[u8] {
    &pool[slot * BLOCK_BYTES..(slot + 1) * BLOCK_BYTES]
}

pub fn decode_block(pool: &[u8], slot: usize) -> Block {
    let bytes = block_bytes(pool, slot);
    let mut payload = [0; LEAF_BYTES];
    payload.copy_from_slice(&bytes[PAYLOAD_START..]);
    Block {
        mark: [bytes[0], bytes[1]],
        own_slot: u32::from_le_bytes([bytes[4], bytes[5], bytes[6], bytes[7]]),
        version: decode_version(&bytes[8..16]),
        content: Content { height: bytes[2], count: bytes[3], payload },
    }
}

pub fn encode_block(pool: &mut [u8], slot: usize, version: u64, content: &Content) {
    let bytes = &mut pool[slot * BLOCK_BYTES..(slot + 1) * BLOCK_BYTES];
    bytes[0..2].copy_from_slice(&BLOCK_MARK);
    bytes[2] = content.height;
    bytes[3] = content.count;
    bytes[4..8].copy_from_slice(&(slot as u32).to_le_bytes());
    bytes[8..16].copy_from_slice(&version.to_le_bytes());
    bytes[PAYLOAD_START..].copy_from_slice(&content.payload);
}

/// "A block that goes leaves 64 zeros"
pub fn clear_block(pool: &mut [u8], slot: usize) {
    pool[slot * BLOCK_BYTES..(slot + 1) * BLOCK_BYTES].fill(0);
}

/// "state (0 free, 1 part, 2 root)"
#[derive(Clone, Copy, Debug, PartialEq, Eq)]
pub enum State {
    Free = 0,
    Part = 1,
    Root = 2,
}

impl State {
    /// "Part and root are live."
    pub fn is_live(self) -> bool {
        self != State::Free
    }
}

#[derive(Clone, Copy, Debug, PartialEq, Eq)]
pub struct Record {
    pub state: State,
    pub version: u64,
}

/// The record in these 12 bytes, or nothing if it breaks its layout: "mark
/// 52 31, state (0 free, 1 part, 2 root), a zero byte, version in 8 bytes. A
/// live record has version at least 1." A free one may have any (reading 6).
pub fn decode_record(bytes: &[u8]) -> Option<Record> {
    let state = match bytes[2] {
        0 => State::Free,
        1 => State::Part,
        2 => State::Root,
        _ => return None,
    };
    let version = decode_version(&bytes[4..12]);
    let fits = bytes[0..2] == RECORD_MARK && bytes[3] == 0 && !(state.is_live() && version == 0);
    fits.then_some(Record { state, version })
}

pub fn encode_record(records: &mut [u8], slot: usize, record: Record) {
    let bytes = &mut records[slot * RECORD_BYTES..(slot + 1) * RECORD_BYTES];
    bytes[0..2].copy_from_slice(&RECORD_MARK);
    bytes[2] = record.state as u8;
    bytes[3] = 0;
    bytes[4..12].copy_from_slice(&record.version.to_le_bytes());
}

fn decode_version(bytes: &[u8]) -> u64 {
    let mut eight = [0; 8];
    eight.copy_from_slice(bytes);
    u64::from_le_bytes(eight)
}
