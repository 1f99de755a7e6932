//! Long runs of calls by chance: against the history of calls, and with
//! spoiled bytes for the promise that nothing panics and no refusal writes.

use super::{plain_no, Store, FREE};
use crate::shape::{block_total, leaf_count};
use std::collections::BTreeMap;

/// A small generator of numbers (splitmix64), the same in every run.
pub struct Chance(pub u64);

impl Chance {
    pub fn next(&mut self) -> u64 {
        self.0 = self.0.wrapping_add(0x9E37_79B9_7F4A_7C15);
        let mixed = (self.0 ^ (self.0 >> 30)).wrapping_mul(0xBF58_476D_1CE4_E5B9);
        let mixed = (mixed ^ (mixed >> 27)).wrapping_mul(0x94D0_49BB_1331_11EB);
        mixed ^ (mixed >> 31)
    }

    pub fn below(&mut self, bound: u64) -> u64 {
        self.next() % bound
    }

    pub fn bytes(&mut self, size: usize) -> Vec<u8> {
        (0..size).map(|_| self.next() as u8).collect()
    }
}

/// The blobs alive as the history of calls tells them.
type History = BTreeMap<u64, Vec<u8>>;

fn live_slots(history: &History) -> u64 {
    history.values().map(|bytes| block_total(leaf_count(bytes.len() as u64))).sum()
}

fn create_by_history(store: &mut Store, history: &mut History) {
    let room = live_slots(history) < store.slots() as u64;
    let lowest = (0..store.slots()).find(|slot| store.state(*slot) == FREE);
    let answer = store.create();
    match lowest {
        Some(slot) if room => assert_eq!(answer, Ok(slot as u64)),
        _ => assert_eq!(answer, Err(plain_no(11))),
    }
    if let Ok(slot) = answer {
        history.insert(slot, Vec::new());
    }
}

fn resize_by_history(store: &mut Store, history: &mut History, root: u64, length: u64) {
    let others = live_slots(history) - block_total(leaf_count(history[&root].len() as u64));
    let fits = others + block_total(leaf_count(length)) <= store.slots() as u64;
    let expected = if fits { Ok(()) } else { Err(plain_no(11)) };
    assert_eq!(store.resize(root, length), expected);
    if fits {
        history.get_mut(&root).unwrap().resize(length as usize, 0);
    }
}

fn write_by_history(store: &mut Store, history: &mut History, root: u64, chance: &mut Chance) {
    let bytes = history.get_mut(&root).unwrap();
    let offset = chance.below(bytes.len() as u64 + 2) as usize;
    let size = chance.below(150) as usize;
    let data = chance.bytes(size);
    let fits = offset + size <= bytes.len();
    let expected = if fits { Ok(()) } else { Err(plain_no(10)) };
    assert_eq!(store.write(root, offset as u64, &data), expected);
    if fits {
        bytes[offset..offset + size].copy_from_slice(&data);
    }
}

/// After any call: the live slots, the bytes, and no version has fallen or
/// risen by more than one.
fn compare(store: &Store, history: &History, before: &Store) {
    assert_eq!(store.audit(), Ok(live_slots(history)));
    for (root, bytes) in history {
        assert_eq!(store.content(*root), *bytes);
    }
    for slot in 0..store.slots() {
        let rise = store.version(slot) - before.version(slot);
        let content =
            |store: &Store| (store.block(slot)[2..4].to_vec(), store.block(slot)[16..].to_vec());
        let gone = store.state(slot) == FREE;
        let taken = before.state(slot) == FREE && !gone;
        let differs = content(store) != content(before);
        assert_eq!(rise, u64::from(taken || (differs && !gone)));
    }
}

#[test]
fn runs_of_calls_agree_with_their_history() {
    for (seed, slots) in [(1, 1), (2, 3), (3, 20), (4, 60), (5, 200), (6, 1024)] {
        let mut chance = Chance(seed);
        let mut store = Store::wiped(slots);
        let mut history = History::new();
        for _ in 0..400 {
            let before = store.clone();
            let pick = chance.below(history.len().max(1) as u64) as usize;
            let root = history.keys().nth(pick).copied();
            match (chance.below(8), root) {
                (0, _) | (_, None) => create_by_history(&mut store, &mut history),
                (1, Some(root)) => {
                    assert_eq!(store.delete(root), Ok(()));
                    history.remove(&root);
                }
                (2..=4, Some(root)) => {
                    let length = chance.below(48 * slots as u64 + 100);
                    resize_by_history(&mut store, &mut history, root, length);
                }
                (_, Some(root)) => write_by_history(&mut store, &mut history, root, &mut chance),
            }
            compare(&store, &history, &before);
        }
    }
}

/// Any call with any numbers; only panics and written bytes can fail here.
fn any_call(store: &mut Store, chance: &mut Chance) {
    let wild = [0, 1, 47, 48, 49, 577, 1 << 32, u64::MAX - 1, u64::MAX];
    let mut number = |bound| match chance.below(4) {
        0 => wild[chance.below(wild.len() as u64) as usize],
        _ => chance.below(bound),
    };
    let (root, offset, length) = (number(12), number(700), number(700));
    let size = chance.below(100) as usize;
    let data = chance.bytes(size);
    let _ = match chance.below(11) {
        0 => store.create().map(|_| ()),
        1 => store.length(root).map(|_| ()),
        2 => store.read(root, offset, size).map(|_| ()),
        3 => store.write(root, offset, &data),
        4 | 5 => store.resize(root, length),
        6 => store.delete(root),
        7 => store.show(root, offset).map(|_| ()),
        8 => store.open_head(root).map(|mut head| drop(store.next(&mut head, size))),
        9 => {
            store.next(&mut [root, offset, length, 1], size);
            Ok(())
        }
        _ => store.audit().map(|_| ()),
    };
}

/// Changes a byte or two of pool or records, mostly of a kind that matters.
fn spoil(store: &mut Store, chance: &mut Chance) {
    let slot = chance.below(store.slots() as u64) as usize;
    let small = chance.below(16) as u8;
    match chance.below(6) {
        // One height more than a root may have: 6 since W-203, 4 before.
        0 => store.block_mut(slot)[2] = small % 7,
        1 => store.block_mut(slot)[3] = chance.next() as u8 % 64,
        2 => store.block_mut(slot)[16 + 4 * (usize::from(small) % 12)] = small,
        3 => store.record_mut(slot)[2] = small % 3,
        4 => store.record_mut(slot)[4 + usize::from(small) % 8] = chance.next() as u8,
        _ => store.block_mut(slot)[usize::from(small) * 4] = chance.next() as u8,
    }
}

#[test]
fn spoiled_stores_never_panic_and_refusals_write_nothing() {
    let mut chance = Chance(7);
    for _ in 0..400 {
        let mut store = Store::wiped(40);
        for _ in 0..30 {
            any_call(&mut store, &mut chance);
        }
        for _ in 0..30 {
            spoil(&mut store, &mut chance);
            any_call(&mut store, &mut chance);
        }
    }
}

#[test]
fn any_lengths_and_bytes_never_panic() {
    let mut chance = Chance(8);
    for _ in 0..2_000 {
        let slots = chance.below(6) as usize;
        let (off, more) = (chance.below(3) as usize, chance.below(3) as usize);
        let pool = chance.bytes((64 * slots + off).saturating_sub(1));
        let records = chance.bytes((12 * slots + more).saturating_sub(1));
        let mut store = Store { pool, records };
        for _ in 0..5 {
            any_call(&mut store, &mut chance);
        }
    }
}
