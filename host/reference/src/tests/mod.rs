//! The tests and the store they share. Every call made through `Store` also
//! checks that a refusal leaves pool, records and output untouched.

mod chance;
mod forged_heads;
mod heads;
mod large;
mod numbers;
mod order;
mod readings_calls;
mod readings_refusals;
mod readings_walk;
mod refusals;
mod resizing;
mod versions;

use crate::{Head, Refusal};

pub const FREE: u8 = 0;
pub const PART: u8 = 1;
pub const ROOT: u8 = 2;
pub const WORN: u64 = u64::MAX;

/// A refusal that names a slot.
pub fn no(number: u64, slot: u64) -> Refusal {
    Refusal { number, slot: Some(slot) }
}

/// A refusal that names none.
pub fn plain_no(number: u64) -> Refusal {
    Refusal { number, slot: None }
}

#[derive(Clone, Debug, PartialEq, Eq)]
pub struct Store {
    pub pool: Vec<u8>,
    pub records: Vec<u8>,
}

/// The calls.
impl Store {
    pub fn wiped(slots: usize) -> Store {
        let mut store = Store { pool: vec![0xAA; 64 * slots], records: vec![0xBB; 12 * slots] };
        store.wipe().unwrap();
        store
    }

    /// A wiped store with one blob of this length in slot 0, all bytes zero.
    pub fn with_blob(slots: usize, length: u64) -> Store {
        let mut store = Store::wiped(slots);
        assert_eq!(store.create(), Ok(0));
        store.resize(0, length).unwrap();
        store
    }

    pub fn wipe(&mut self) -> Result<(), Refusal> {
        self.unchanged_if_refused(crate::wipe)
    }

    pub fn create(&mut self) -> Result<u64, Refusal> {
        self.unchanged_if_refused(crate::create)
    }

    pub fn length(&self, root: u64) -> Result<u64, Refusal> {
        crate::length(&self.pool, &self.records, root)
    }

    pub fn read(&self, root: u64, offset: u64, size: usize) -> Result<Vec<u8>, Refusal> {
        let mut out = vec![0x77; size];
        let answer = crate::read(&self.pool, &self.records, root, offset, &mut out);
        if answer.is_err() {
            assert_eq!(out, vec![0x77; size], "a refused read wrote its output");
        }
        answer.map(|()| out)
    }

    pub fn write(&mut self, root: u64, offset: u64, data: &[u8]) -> Result<(), Refusal> {
        self.unchanged_if_refused(|pool, records| crate::write(pool, records, root, offset, data))
    }

    pub fn resize(&mut self, root: u64, length: u64) -> Result<(), Refusal> {
        self.unchanged_if_refused(|pool, records| crate::resize(pool, records, root, length))
    }

    pub fn delete(&mut self, root: u64) -> Result<(), Refusal> {
        self.unchanged_if_refused(|pool, records| crate::delete(pool, records, root))
    }

    pub fn show(&self, root: u64, leaf: u64) -> Result<&[u8], Refusal> {
        let (start, length) = crate::show(&self.pool, &self.records, root, leaf)?;
        Ok(&self.pool[start..start + length])
    }

    pub fn audit(&self) -> Result<u64, Refusal> {
        crate::audit(&self.pool, &self.records)
    }

    /// A head on this root. What stood in its numbers before is gone either way.
    pub fn open_head(&self, root: u64) -> Result<Head, Refusal> {
        let mut head = [7; 4];
        let answer = crate::open_head(&self.pool, &self.records, root, &mut head);
        match answer {
            Ok(length) => assert_eq!(head, [root, 0, length, 1]),
            Err(_) => assert_eq!(head, [0; 4], "a refused head is not all zeros"),
        }
        answer.map(|_| head)
    }

    /// What the head hands out when it is asked for so many bytes.
    pub fn next(&self, head: &mut Head, size: usize) -> Vec<u8> {
        let before = *head;
        let mut out = vec![0x77; size];
        let count = crate::next(&self.pool, head, &mut out);
        assert_eq!(*head, [before[0], before[1] + count, before[2], before[3]]);
        let rest = out.split_off(count as usize);
        assert!(rest.iter().all(|byte| *byte == 0x77), "the rest of the output was written");
        out
    }

    fn unchanged_if_refused<T>(
        &mut self,
        call: impl FnOnce(&mut [u8], &mut [u8]) -> Result<T, Refusal>,
    ) -> Result<T, Refusal> {
        let before = self.clone();
        let answer = call(&mut self.pool, &mut self.records);
        if answer.is_err() {
            assert!(*self == before, "a refusal wrote a byte");
        }
        answer
    }
}

/// Looking at bytes.
impl Store {
    pub fn slots(&self) -> usize {
        self.pool.len() / 64
    }

    pub fn block(&self, slot: usize) -> &[u8] {
        &self.pool[64 * slot..64 * slot + 64]
    }

    pub fn record(&self, slot: usize) -> &[u8] {
        &self.records[12 * slot..12 * slot + 12]
    }

    pub fn state(&self, slot: usize) -> u8 {
        self.record(slot)[2]
    }

    pub fn height(&self, slot: usize) -> u8 {
        self.block(slot)[2]
    }

    pub fn count(&self, slot: usize) -> u8 {
        self.block(slot)[3]
    }

    /// The record's version. A live block has the same, a free one is zeros.
    pub fn version(&self, slot: usize) -> u64 {
        let version = u64::from_le_bytes(self.record(slot)[4..].try_into().unwrap());
        if self.state(slot) == FREE {
            assert_eq!(self.block(slot), [0; 64]);
        } else {
            assert_eq!(self.block(slot)[8..16], version.to_le_bytes());
        }
        version
    }

    pub fn versions(&self) -> Vec<u64> {
        (0..self.slots()).map(|slot| self.version(slot)).collect()
    }

    pub fn children(&self, slot: usize) -> Vec<u32> {
        let row = self.block(slot)[16..].chunks(4).take(usize::from(self.count(slot)));
        row.map(|four| u32::from_le_bytes(four.try_into().unwrap())).collect()
    }

    /// State, height, count and payload of every slot: all but the versions.
    pub fn without_versions(&self) -> Vec<(u8, u8, u8, Vec<u8>)> {
        let slot = |slot| {
            let payload = self.block(slot)[16..].to_vec();
            (self.state(slot), self.height(slot), self.count(slot), payload)
        };
        (0..self.slots()).map(slot).collect()
    }

    pub fn content(&self, root: u64) -> Vec<u8> {
        let length = self.length(root).unwrap();
        self.read(root, 0, length as usize).unwrap()
    }
}

/// Spoiling and building by hand.
impl Store {
    pub fn block_mut(&mut self, slot: usize) -> &mut [u8] {
        &mut self.pool[64 * slot..64 * slot + 64]
    }

    pub fn record_mut(&mut self, slot: usize) -> &mut [u8] {
        &mut self.records[12 * slot..12 * slot + 12]
    }

    pub fn spoil_mark(&mut self, slot: usize) {
        self.block_mut(slot)[0] ^= 1;
    }

    pub fn set_own_slot(&mut self, slot: usize, number: u32) {
        self.block_mut(slot)[4..8].copy_from_slice(&number.to_le_bytes());
    }

    pub fn set_block_version(&mut self, slot: usize, version: u64) {
        self.block_mut(slot)[8..16].copy_from_slice(&version.to_le_bytes());
    }

    pub fn set_record(&mut self, slot: usize, state: u8, version: u64) {
        let record = self.record_mut(slot);
        record[..4].copy_from_slice(&[0x52, 0x31, state, 0]);
        record[4..].copy_from_slice(&version.to_le_bytes());
    }

    /// Sets the version of a live slot in block and record.
    pub fn set_version(&mut self, slot: usize, version: u64) {
        let state = self.state(slot);
        self.set_record(slot, state, version);
        self.set_block_version(slot, version);
    }

    pub fn set_child(&mut self, slot: usize, index: usize, child: u32) {
        let start = 16 + 4 * index;
        self.block_mut(slot)[start..start + 4].copy_from_slice(&child.to_le_bytes());
    }

    pub fn build(&mut self, slot: usize, state: u8, height: u8, count: u8, payload: &[u8]) {
        self.set_record(slot, state, 1);
        let block = self.block_mut(slot);
        block.fill(0);
        block[..4].copy_from_slice(&[0x4C, 0x31, height, count]);
        block[16..16 + payload.len()].copy_from_slice(payload);
        self.set_own_slot(slot, slot as u32);
        self.set_block_version(slot, 1);
    }

    pub fn build_leaf(&mut self, slot: usize, state: u8, data: &[u8]) {
        self.build(slot, state, 0, data.len() as u8, data);
    }

    pub fn build_inner(&mut self, slot: usize, state: u8, height: u8, children: &[u32]) {
        let payload: Vec<u8> = children.iter().flat_map(|child| child.to_le_bytes()).collect();
        self.build(slot, state, height, children.len() as u8, &payload);
    }
}

/// Bytes that differ from place to place and are never zero.
pub fn pattern(length: usize) -> Vec<u8> {
    (0..length).map(|at| (at % 251) as u8 + 1).collect()
}
