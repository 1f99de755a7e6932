//! Heads that no opening made, and heads over another pool than their own:
//! what is handed out follows from the numbers and the pool's bytes alone.

use super::chance::Chance;
use super::{pattern, Store, PART, ROOT};
use crate::Head;

const LAST: u64 = u64::MAX;

/// Eight slots: 0 is a root of height 1 with the children 2 and 1, and slots 1
/// to 7 are leaves of 48 bytes, each filled with ten times its slot.
fn eight_slots() -> Store {
    let mut store = Store::wiped(8);
    store.build_inner(0, ROOT, 1, &[2, 1]);
    (1..8).for_each(|slot| store.build_leaf(slot, PART, &[10 * slot as u8; 48]));
    store
}

/// What this head hands out when it is asked for so many bytes.
fn asked(store: &Store, head: Head, size: usize) -> Vec<u8> {
    store.next(&mut head.clone(), size)
}

/// The 48 bytes that are read where a leaf is in this slot.
fn payload(store: &Store, slot: usize) -> &[u8] {
    &store.block(slot)[16..]
}

#[test]
fn only_the_fourth_number_1_is_open() {
    let store = eight_slots();
    for open in [0, 2, 3, 1 << 32, LAST] {
        let mut head = [0, 3, 96, open];
        assert_eq!(store.next(&mut head, 10), []);
        assert_eq!(head, [0, 3, 96, open]);
    }
    assert_eq!(asked(&store, [0, 3, 96, 1], 10), [20; 10]);
}

#[test]
fn a_place_not_below_the_length_hands_out_nothing() {
    let store = eight_slots();
    for (place, length) in [(0, 0), (96, 96), (97, 96), (LAST, 96), (LAST, 0), (LAST, LAST)] {
        assert_eq!(asked(&store, [0, place, length, 1], 10), []);
    }
}

#[test]
fn the_length_of_the_head_is_not_the_blobs() {
    let store = eight_slots();
    assert_eq!(asked(&store, [0, 0, 5, 1], 100), [20; 5]);
    assert_eq!(asked(&store, [0, 40, 50, 1], 100), [[20; 8].as_slice(), &[10; 2]].concat());
}

/// The row has twelve children whatever its count; the unused ones are 0.
#[test]
fn the_count_is_not_looked_at() {
    let mut store = eight_slots();
    assert_eq!(asked(&store, [0, 96, 200, 1], 48), payload(&store, 0));
    store.block_mut(0)[3] = 0;
    assert_eq!(asked(&store, [0, 0, 200, 1], 50), [[20; 48].as_slice(), &[10; 2]].concat());
    store.set_child(0, 11, 7);
    assert_eq!(asked(&store, [0, 11 * 48, LAST, 1], 48), [70; 48]);
}

#[test]
fn past_the_last_child_the_row_starts_over() {
    let mut store = eight_slots();
    for index in 0..12 {
        store.set_child(0, index, 1 + index as u32 % 7);
    }
    for leaf in [0, 1, 11, 12, 13, 24, 12 * 1_000 + 6] {
        let slot = 1 + leaf as usize % 12 % 7;
        assert_eq!(asked(&store, [0, 48 * leaf, LAST, 1], 48), payload(&store, slot));
    }
}

#[test]
fn a_leaf_for_a_root_is_every_leaf() {
    let mut store = eight_slots();
    store.block_mut(5)[16..].copy_from_slice(&pattern(48));
    assert_eq!(
        asked(&store, [5, 0, 120, 1], 200),
        [pattern(48), pattern(48), pattern(24)].concat()
    );
    assert_eq!(asked(&store, [5, 50, 120, 1], 3), [3, 4, 5]);
}

#[test]
fn zeros_for_a_root_hand_out_zeros() {
    let mut store = eight_slots();
    store.block_mut(6).fill(0);
    assert_eq!(asked(&store, [6, 0, 1_000, 1], 700), [0; 700]);
}

#[test]
fn a_root_not_below_n_hands_out_zeros() {
    let store = eight_slots();
    for root in [8, 9, 1_024, 1 << 32, (1 << 32) + 5, 1 << 58, 1 << 63, LAST] {
        assert_eq!(asked(&store, [root, 7, 1_000, 1], 700), [0; 700], "root {root}");
    }
}

#[test]
fn a_leaf_not_below_n_is_zeros() {
    let mut store = eight_slots();
    for slot in [8, 1 << 16, u32::MAX] {
        store.set_child(0, 0, slot);
        assert_eq!(asked(&store, [0, 46, 96, 1], 5), [0, 0, 10, 10, 10], "child {slot}");
    }
}

/// The children of a block beyond the pool are all slot 0.
#[test]
fn below_a_block_not_below_n_slot_0_is_every_leaf() {
    let mut store = eight_slots();
    store.build_inner(3, ROOT, 2, &[8, u32::MAX, 0]);
    let slot_0 = payload(&store, 0).to_vec();
    assert_eq!(asked(&store, [3, 0, LAST, 1], 96), [slot_0.clone(), slot_0.clone()].concat());
    assert_eq!(asked(&store, [3, 576, LAST, 1], 48), slot_0);
    // The third child is slot 0, and its first is slot 2.
    assert_eq!(asked(&store, [3, 2 * 576, LAST, 1], 48), [20; 48]);
    store.block_mut(3)[2] = 3;
    // Three heights down: a child of slot 0, which is named by a block beyond the pool.
    assert_eq!(asked(&store, [3, 48, LAST, 1], 48), [10; 48]);
}

/// Twelve slots: 7 is a root of height 3 with any heights below it, and 11 one
/// of height 5 over it.
fn twelve_slots() -> Store {
    let mut store = eight_slots();
    store.build_inner(7, ROOT, 3, &[6, 5]);
    store.build_inner(6, PART, 0, &[4, 0]);
    store.build_inner(5, PART, 77, &[0, 4]);
    store.build_inner(4, PART, 1, &[1, 3]);
    store.pool.resize(64 * 12, 0);
    store.records.resize(12 * 12, 0);
    store.build_inner(11, ROOT, 5, &[9, 10]);
    store.build_inner(10, PART, 2, &[8, 7]);
    store.build_inner(9, PART, 255, &[7, 8]);
    store.build_inner(8, PART, 0, &[5, 6]);
    store
}

/// The 48 bytes of a leaf below this root.
fn leaf_below(store: &Store, root: u64, number: u64) -> Vec<u8> {
    asked(store, [root, 48 * number, LAST, 1], 48)
}

/// "Heights go to 5" (W-203): 3 is no longer the height that all above it count
/// as.
#[test]
fn a_root_of_height_3_has_its_leaves_three_below() {
    let store = twelve_slots();
    let leaf = |number| leaf_below(&store, 7, number);
    // 7, 6, 4, then its children; after twelve leaves 7, 6, 0.
    assert_eq!((leaf(0), leaf(1)), (vec![10; 48], vec![30; 48]));
    assert_eq!((leaf(12), leaf(13)), (vec![20; 48], vec![10; 48]));
    // After a hundred and forty-four 7, 5, 0, and then 7, 5, 4.
    assert_eq!((leaf(144), leaf(145)), (vec![20; 48], vec![10; 48]));
    assert_eq!((leaf(156), leaf(157)), (vec![10; 48], vec![30; 48]));
}

#[test]
fn a_height_above_5_counts_as_5() {
    let mut store = twelve_slots();
    for height in [5, 6, 128, 255] {
        store.block_mut(11)[2] = height;
        let leaf = |number| leaf_below(&store, 11, number);
        // 11, 9, 7, 6, 4, then its children.
        assert_eq!((leaf(0), leaf(1)), (vec![10; 48], vec![30; 48]));
        // After 12, 12^2, 12^3 and 12^4 leaves one of the rows goes on by one,
        // which ends in 0.
        for power in [12, 144, 1_728, 20_736] {
            assert_eq!((leaf(power), leaf(power + 1)), (vec![20; 48], vec![10; 48]));
        }
        // 11, 10, 7, 6, 4, then its children.
        assert_eq!((leaf(20_736 + 1_728), leaf(22_465)), (vec![10; 48], vec![30; 48]));
        // After 12^5 it starts over.
        assert_eq!((leaf(248_832), leaf(248_833)), (vec![10; 48], vec![30; 48]));
    }
}

#[test]
fn a_height_of_4_is_not_5() {
    let mut store = twelve_slots();
    store.block_mut(11)[2] = 4;
    assert_eq!(leaf_below(&store, 11, 0), payload(&store, 4));
    for power in [1, 12, 144, 1_728] {
        assert_eq!(leaf_below(&store, 11, power), payload(&store, 0));
    }
    assert_eq!(leaf_below(&store, 11, 20_736), payload(&store, 4));
}

/// Only the root's height is looked at: here 2, 1 and 0.
#[test]
fn the_height_is_the_roots() {
    let mut store = eight_slots();
    store.build_inner(7, ROOT, 2, &[6, 5]);
    store.build_inner(6, PART, 0, &[4, 3]);
    for (height, first) in [(2, vec![40; 48]), (1, payload(&store, 6).to_vec())] {
        store.block_mut(7)[2] = height;
        assert_eq!(asked(&store, [7, 0, 48, 1], 48), first);
    }
    store.block_mut(7)[2] = 0;
    assert_eq!(asked(&store, [7, 0, 48, 1], 48), payload(&store, 7));
}

#[test]
fn a_row_that_names_itself_ends() {
    let mut store = eight_slots();
    (0..12).for_each(|index| store.set_child(0, index, 0));
    store.block_mut(0)[2] = 255;
    assert_eq!(asked(&store, [0, 0, LAST, 1], 500), [0; 500]);
    store.set_child(0, 1, 3);
    assert_eq!(asked(&store, [0, 48, LAST, 1], 48), [30; 48]);
}

/// 2^64 - 2 is 48 times a number with the rest 14, and that number is 12 times
/// another one with the rest 9.
#[test]
fn the_last_place_of_all_is_handed_out() {
    let mut store = eight_slots();
    store.set_child(0, 9, 4);
    store.block_mut(4)[16..].copy_from_slice(&pattern(48));
    let mut head = [0, LAST - 1, LAST, 1];
    assert_eq!(store.next(&mut head, 5), [15]);
    assert_eq!(head, [0, LAST, LAST, 1]);
    assert_eq!(store.next(&mut head, 5), []);
    assert_eq!(asked(&store, [0, LAST - 15, LAST, 1], 500), pattern(15));
    assert_eq!(asked(&store, [0, LAST - 15, LAST, 1], 15), pattern(15));
}

#[test]
fn a_length_of_2_to_64_minus_1_hands_out_what_is_asked() {
    let store = eight_slots();
    for size in [0, 1, 48, 100_000] {
        assert_eq!(asked(&store, [1, 0, LAST, 1], size), vec![10; size]);
    }
}

/// N is rounded down: bytes after the last whole block are no slot.
#[test]
fn a_pool_of_any_length_has_its_whole_blocks() {
    let mut store = eight_slots();
    store.build_inner(0, ROOT, 1, &[7, 6]);
    let head = [0, 40, 60, 1];
    let whole = [[70; 8].as_slice(), &[60; 12]].concat();
    let all = store.pool.clone();
    for more in [0, 1, 63] {
        store.pool = [&all[..], &vec![0xEE; more]].concat();
        assert_eq!(asked(&store, head, 100), whole);
        assert_eq!(asked(&store, [8, 0, 60, 1], 100), [0; 60]);
    }
    store.pool.truncate(511);
    assert_eq!(asked(&store, head, 100), [[0; 8].as_slice(), &[60; 12]].concat());
    store.pool.truncate(7 * 64 - 1);
    assert_eq!(asked(&store, head, 100), [0; 20]);
    for bytes in [63, 16, 1, 0] {
        store.pool.truncate(bytes);
        assert_eq!(asked(&store, head, 100), [0; 20]);
        assert_eq!(asked(&store, [0, 0, LAST, 1], 1_000), [0; 1_000]);
        assert_eq!(asked(&store, [0, 0, LAST, 0], 1_000), []);
    }
}

#[test]
fn a_pool_that_changes_is_read_as_it_is_now() {
    let mut store = Store::with_blob(8, 100);
    store.write(0, 0, &pattern(100)).unwrap();
    let mut head = store.open_head(0).unwrap();
    assert_eq!(store.next(&mut head, 50), pattern(50));
    store.write(0, 50, &[0xAB; 20]).unwrap();
    assert_eq!(store.next(&mut head, 20), [0xAB; 20]);
    // The root is a leaf again and has 10 bytes; the head still has its length.
    store.resize(0, 10).unwrap();
    assert_eq!(store.next(&mut head, 100), [[0; 26].as_slice(), &pattern(4)].concat());
    store.delete(0).unwrap();
    head[1] = 0;
    assert_eq!(store.next(&mut head, 200), [0; 100]);
}

/// Byte p of the blob, in the words of the definition.
fn byte_at(pool: &[u8], root: u64, p: u64) -> u8 {
    let slots = pool.len() as u64 / 64;
    let byte = |slot: u64, at: u64| if slot < slots { pool[(64 * slot + at) as usize] } else { 0 };
    let child = |slot: u64, number: u64| {
        (0..4).map(|i| u64::from(byte(slot, 16 + 4 * number + i)) << (8 * i)).sum::<u64>()
    };
    let j = p / 48;
    let below = [1, 12, 144, 1_728, 20_736];
    let heights = usize::from(byte(root, 2)).min(below.len());
    let row = below[..heights].iter().rev();
    let leaf = row.fold(root, |slot, leaves| child(slot, j / leaves % 12));
    byte(leaf, 16 + p % 48)
}

/// Blocks of any bytes, and blocks whose children are mostly within reach; of
/// low and of any heights. Some bytes lie after the last block.
fn any_pool(chance: &mut Chance, slots: u64) -> Vec<u8> {
    let bytes = 64 * slots + chance.below(64);
    let mut pool = chance.bytes(bytes as usize);
    for block in pool.chunks_exact_mut(64) {
        if chance.below(4) > 0 {
            block[2] = chance.below(7) as u8;
        }
        if chance.below(2) > 0 {
            let row = block[16..].chunks_mut(4);
            row.for_each(|four| four.copy_from_slice(&[chance.below(slots + 1) as u8, 0, 0, 0]));
        }
    }
    pool
}

#[test]
fn any_head_over_any_pool_hands_out_the_bytes_of_the_definition() {
    let mut chance = Chance(9);
    for _ in 0..3_000 {
        let (size, slots) = (chance.below(600) as usize, 1 + chance.below(9));
        let store = Store { pool: any_pool(&mut chance, slots), records: Vec::new() };
        let places = [chance.below(8_000), chance.below(3_000_000), LAST - chance.below(8_000)];
        let place = places[chance.below(3) as usize];
        let root = chance.below(slots + 1);
        let length = place.saturating_add(chance.below(700));
        let handed = asked(&store, [root, place, length, 1], size);
        assert_eq!(handed.len() as u64, (size as u64).min(length - place));
        let expected = (place..length).map(|p| byte_at(&store.pool, root, p));
        assert!(handed.into_iter().eq(expected.take(size)));
    }
}
