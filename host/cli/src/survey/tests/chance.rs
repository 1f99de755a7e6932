//! The walk against the library, over spoilt stores by the thousand.

use super::super::*;
use super::{large, small, tall, tallest, Store};
use crate::layout::Block;
use tjornsaki::{BLOCK_BYTES, RECORD_BYTES};

struct Chance(u64);

impl Chance {
    fn below(&mut self, most: usize) -> usize {
        self.0 ^= self.0 << 13;
        self.0 ^= self.0 >> 7;
        self.0 ^= self.0 << 17;
        (self.0 >> 11) as usize % most
    }
}

/// One change to a pool: foreign bytes, a block cut short, moved, or an older one.
fn spoil(pool: &mut [u8], store: &Store, chance: &mut Chance) {
    let slots = pool.len() / BLOCK_BYTES;
    let slot = chance.below(slots) * BLOCK_BYTES;
    match chance.below(7) {
        0 => pool[slot + chance.below(BLOCK_BYTES)] = chance.below(256) as u8,
        1 => pool[slot + 2 + chance.below(2)] = chance.below(14) as u8,
        2 => pool[slot + 8] = pool[slot + 8].wrapping_add(chance.below(3) as u8),
        3 => pool[slot + 16 + chance.below(12) * 4] = chance.below(slots + 2) as u8,
        4 => {
            let (count, each) = (chance.below(4), if pool[slot + 2] == 0 { 1 } else { 4 });
            pool[slot + 3] = count as u8;
            pool[slot + 16 + count * each..slot + BLOCK_BYTES].fill(0);
        }
        5 => {
            let from = chance.below(slots) * BLOCK_BYTES;
            pool.copy_within(from..from + BLOCK_BYTES, slot);
        }
        _ => {
            let old = &store.history[chance.below(store.history.len())];
            pool[slot..slot + BLOCK_BYTES].copy_from_slice(&old[slot..slot + BLOCK_BYTES]);
        }
    }
}

/// The walk says no other than the library; answers whether all is well.
fn agrees(pool: &[u8], record_bytes: &[u8]) -> bool {
    let records = records(record_bytes);
    let mut walker = Walker::new(pool, &records);
    for root in roots(&records) {
        let walk = walker.blob(root as usize);
        let length = tjornsaki::length(pool, record_bytes, root);
        assert_eq!(walk.faults.first().copied(), length.err(), "blob {root}");
    }
    let found = Found::new(pool, &records);
    let audit = tjornsaki::audit(pool, record_bytes);
    assert_eq!(found.bad.is_empty(), audit.is_ok(), "{audit:?}");
    let listed = |refusal| found.bad.iter().any(|bad| bad.refusal == refusal);
    assert!(audit.err().map_or(true, listed), "{audit:?}");
    for (slot, record) in records.iter().enumerate() {
        let live = [State::Part, State::Root].contains(&record.state);
        let known = |block: Block<'_>| {
            block.marked() && block.slot() == slot as u64 && block.version() == record.version
        };
        let bad = found.bad.iter().any(|bad| bad.refusal.slot == Some(slot as u64));
        assert!(bad || !live || block(pool, slot).map_or(false, known), "slot {slot}");
        assert!(!bad || !found.cut_off.contains(&(slot as u64)), "slot {slot}");
    }
    explains_refused_blobs(pool, record_bytes);
    audit.is_ok()
}

/// Each refused blob is hurt by a bad slot; each blob that reads is by none.
fn explains_refused_blobs(pool: &[u8], record_bytes: &[u8]) {
    let survey = Survey::new(pool, record_bytes).unwrap();
    for blob in &survey.blobs {
        assert_eq!(blob.length, tjornsaki::length(pool, record_bytes, blob.root));
        let hurt = survey.bad.iter().any(|bad| bad.hurts.contains(&blob.root));
        assert_eq!(hurt, blob.length.is_err(), "blob {}", blob.root);
    }
}

#[test]
fn spoilt_pools() {
    let mut chance = Chance(88172645463325252);
    for (store, rounds) in [(small(), 20_000), (large(), 4_000)] {
        assert!(agrees(&store.pool(), &store.records));
        let mut sound = 0;
        for _ in 0..rounds {
            let mut pool = store.pool();
            for _ in 0..=chance.below(6) {
                spoil(&mut pool, &store, &mut chance);
            }
            sound += usize::from(agrees(&pool, &store.records));
        }
        assert!(0 < sound && sound < rounds / 2, "{sound} of {rounds}");
    }
}

/// The same with heights that only stores of more than 1,024 slots have. Blocks of
/// the upper heights lie anywhere, so each round spoils the root or one of its
/// children besides.
#[test]
fn spoilt_pools_of_tall_blobs() {
    let mut chance = Chance(2463534242);
    for (store, rounds) in [(tall(), 150), (tallest(), 15)] {
        let children = block(&store.pool(), 0).map_or(vec![], |block| block.children());
        assert!(agrees(&store.pool(), &store.records));
        for round in 0..rounds {
            let mut pool = store.pool();
            spoil(&mut pool, &store, &mut chance);
            let slot = if round % 3 == 0 { 0 } else { children[chance.below(children.len())] };
            let place = [2, 3, 8, 16, 20, 22][chance.below(6)];
            pool[slot * BLOCK_BYTES + place] = chance.below(14) as u8;
            agrees(&pool, &store.records);
        }
    }
}

/// Each slot as it was at some time of the store's own history.
#[test]
fn pools_of_all_times() {
    let mut chance = Chance(362436069);
    for (store, rounds) in [(small(), 3_000), (large(), 1_000)] {
        for _ in 0..rounds {
            let (first, second) =
                (chance.below(store.history.len()), chance.below(store.history.len()));
            let mut pool = store.history[first].clone();
            for slot in (0..pool.len()).step_by(BLOCK_BYTES).filter(|_| chance.below(2) == 0) {
                let other = &store.history[second][slot..slot + BLOCK_BYTES];
                pool[slot..slot + BLOCK_BYTES].copy_from_slice(other);
            }
            agrees(&pool, &store.records);
        }
    }
}

/// Records that are broken, and records that say something else.
#[test]
fn spoilt_records() {
    let mut chance = Chance(521288629);
    let store = small();
    for _ in 0..4_000 {
        let mut changed = store.records.clone();
        for _ in 0..=chance.below(3) {
            let place = chance.below(changed.len() / RECORD_BYTES) * RECORD_BYTES;
            changed[place + 2 + chance.below(3)] = chance.below(3) as u8;
        }
        let audit = tjornsaki::audit(&store.pool(), &changed);
        let found = Found::new(&store.pool(), &records(&changed));
        match audit {
            Err(refusal @ Refusal { number: 2, .. }) => {
                let broken = found.bad.iter().find(|bad| bad.refusal.number == 2);
                assert_eq!(broken.map(|bad| bad.refusal), Some(refusal));
                explains_refused_blobs(&store.pool(), &changed);
            }
            _ => drop(agrees(&store.pool(), &changed)),
        }
    }
}
