//! "Bigger pools" (W-203): blobs about the heights 4 and 5, and the last slots
//! of a pool of 65,536.

use super::{no, pattern, plain_no, Store, FREE, PART, ROOT};
use crate::shape::block_total;

const MOST: usize = 65_536;
/// Leaf counts about which the height changes, with their heights, and the most
/// leaves that a pool has room for.
const LARGE: [(u64, u8); 5] = [(1_728, 3), (1_729, 4), (20_736, 4), (20_737, 5), (60_072, 5)];

/// A patterned blob of this many leaves, the last one with 5 bytes, alone in a
/// pool that it fills.
fn filling(leaves: u64) -> (Store, Vec<u8>) {
    let bytes = pattern(48 * leaves as usize - 43);
    let mut store = Store::with_blob(block_total(leaves) as usize, bytes.len() as u64);
    store.write(0, 0, &bytes).unwrap();
    (store, bytes)
}

/// The slots of the right edge from the root to the last leaf.
fn right_edge(store: &Store) -> Vec<usize> {
    let mut edge = vec![0];
    for _ in 0..store.height(0) {
        let row = store.children(edge[edge.len() - 1]);
        edge.push(row[row.len() - 1] as usize);
    }
    edge
}

#[test]
fn blobs_about_each_height_fill_their_pools() {
    for (leaves, height) in LARGE {
        let (mut store, bytes) = filling(leaves);
        assert_eq!((store.height(0), store.audit()), (height, Ok(block_total(leaves))));
        assert!(store.content(0) == bytes, "{leaves} leaves");
        assert_eq!(store.show(0, leaves - 1), Ok(&bytes[bytes.len() - 5..]));
        assert_eq!(store.show(0, leaves), Err(plain_no(10)));
        assert_eq!(store.create(), Err(plain_no(11)));
        assert_eq!(store.resize(0, 48 * leaves + 1), Err(plain_no(11)));
        store.delete(0).unwrap();
        assert_eq!(store.audit(), Ok(0));
    }
}

#[test]
fn one_slot_less_is_11() {
    for (leaves, _) in LARGE {
        let mut store = Store::with_blob(block_total(leaves) as usize - 1, 0);
        assert_eq!(store.resize(0, 48 * leaves), Err(plain_no(11)));
    }
}

#[test]
fn sixty_thousand_and_seventy_three_leaves_are_11() {
    let mut store = Store::with_blob(MOST, 0);
    assert_eq!(store.resize(0, 48 * 60_072 + 1), Err(plain_no(11)));
    assert_eq!(store.resize(0, 48 * 60_072), Ok(()));
    assert_eq!(store.audit(), Ok(65_535));
    assert_eq!(store.resize(0, 48 * 60_072 + 1), Err(plain_no(11)));
}

/// To each number of leaves from the one before, and back.
#[test]
fn longer_and_shorter_across_the_heights() {
    let mut store = Store::with_blob(MOST, 5);
    let bytes = pattern(5);
    store.write(0, 0, &bytes).unwrap();
    let back = LARGE.iter().rev().skip(1);
    for (leaves, height) in LARGE.iter().chain(back) {
        store.resize(0, 48 * leaves).unwrap();
        assert_eq!((store.height(0), store.audit()), (*height, Ok(block_total(*leaves))));
        let mut expected = bytes.clone();
        expected.resize(48 * *leaves as usize, 0);
        assert!(store.content(0) == expected, "{leaves} leaves");
    }
}

/// The root takes over what its one child had, and the three or four blocks of
/// the chain go.
#[test]
fn one_leaf_less_is_one_height_less() {
    for (leaves, chain) in [(1_729, 4), (20_737, 5)] {
        let (mut store, bytes) = filling(leaves);
        let chain_slots = right_edge(&store)[1..].to_vec();
        assert_eq!(chain_slots.len(), chain);
        store.resize(0, 48 * (leaves - 1)).unwrap();
        assert_eq!((usize::from(store.height(0)), store.count(0)), (chain - 1, 12));
        assert!(chain_slots.iter().all(|slot| store.state(*slot) == FREE));
        assert!(store.content(0) == bytes[..48 * (leaves as usize - 1)]);
    }
}

/// A head goes on over the first leaf of each second row below the root.
#[test]
fn heads_go_on_across_the_rows() {
    let (store, bytes) = filling(60_072);
    let mut head = store.open_head(0).unwrap();
    for leaf in [12, 144, 1_728, 20_736, 41_472, 60_072] {
        let end = bytes.len().min(48 * leaf + 30);
        let place = end - 100;
        head[1] = place as u64;
        assert_eq!(store.next(&mut head, 100), bytes[place..end]);
    }
    assert_eq!(store.next(&mut head, 100), []);
    head[1] = 0;
    assert!(store.next(&mut head, 3_000_000) == bytes);
}

#[test]
fn the_last_slot_can_be_a_root() {
    let mut store = Store::with_blob(MOST, 48 * 60_072);
    assert_eq!(store.create(), Ok(65_535));
    assert_eq!((store.audit(), store.create()), (Ok(65_536), Err(plain_no(11))));
    store.write(0, 48 * 60_072 - 1, &[9]).unwrap();
    store.resize(65_535, 48).unwrap();
    store.write(65_535, 47, &[7]).unwrap();
    assert_eq!((store.length(65_535), store.read(65_535, 47, 1)), (Ok(48), Ok(vec![7])));
    assert_eq!(store.resize(65_535, 49), Err(plain_no(11)));
    for root in [65_534, 65_536, (1 << 32) + 65_535] {
        assert_eq!(store.length(root), Err(plain_no(3)));
    }
    store.delete(0).unwrap();
    assert_eq!((store.state(65_535), store.audit()), (ROOT, Ok(1)));
}

/// A child in slot 65,535 is one like any other; 65,536 is beyond the pool.
#[test]
fn slot_numbers_about_65536_in_a_row() {
    let mut store = Store::with_blob(MOST, 49);
    store.build_leaf(65_535, PART, &[1]);
    assert_eq!(store.audit(), Err(no(8, 65_535)));
    store.set_record(2, FREE, 1);
    store.block_mut(2).fill(0);
    store.set_child(0, 1, 65_535);
    assert_eq!((store.audit(), store.read(0, 47, 2)), (Ok(3), Ok(vec![0, 1])));
    for child in [65_536, 65_537, 1 << 17, u32::MAX] {
        store.set_child(0, 1, child);
        assert_eq!((store.length(0), store.audit()), (Err(no(8, 0)), Err(no(8, 0))));
    }
    store.set_child(0, 1, 65_534);
    assert_eq!(store.length(0), Err(no(9, 65_534)));
}

/// A smaller pool ends earlier.
#[test]
fn slot_numbers_beyond_a_smaller_pool() {
    let mut store = Store::with_blob(1_025, 49);
    for child in [1_025, 65_535, 65_536, u32::MAX] {
        store.set_child(0, 1, child);
        assert_eq!(store.length(0), Err(no(8, 0)));
    }
    store.set_child(0, 1, 1_024);
    assert_eq!(store.length(0), Err(no(9, 1_024)));
}

#[test]
fn heights_of_a_tall_root() {
    let (store, _) = filling(20_737);
    let first = u64::from(store.children(0)[0]);
    for (height, named) in [(3, first), (4, first), (6, 0), (255, 0)] {
        let mut wrong = store.clone();
        wrong.block_mut(0)[2] = height;
        assert_eq!(wrong.length(0), Err(no(8, named)), "height {height}");
    }
    assert_eq!(store.length(0), Ok(48 * 20_737 - 43));
}

#[test]
fn spoiled_blocks_of_each_height_are_named() {
    let (store, _) = filling(20_737);
    for slot in right_edge(&store) {
        let mut spoiled = store.clone();
        spoiled.spoil_mark(slot);
        assert_eq!(spoiled.length(0), Err(no(4, slot as u64)));
        let mut old = store.clone();
        old.set_block_version(slot, 0);
        assert_eq!(old.audit(), Err(no(6, slot as u64)));
    }
}
