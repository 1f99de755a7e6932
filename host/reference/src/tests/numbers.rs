//! "Numbers to try", row by row, and the whole one-slot example.

use super::{no, plain_no, Store, FREE, PART, ROOT};
use crate::shape::{block_total, leaf_count};

fn blocks(length: u64) -> u64 {
    block_total(leaf_count(length))
}

#[test]
fn a_blob_created_in_a_wiped_one_slot_pool_is_whole() {
    let mut store = Store::wiped(1);
    assert_eq!(store.pool, [0; 64]);
    assert_eq!(store.records, [0x52, 0x31, 0, 0, 0, 0, 0, 0, 0, 0, 0, 0]);
    assert_eq!(store.create(), Ok(0));
    let mut block = vec![0x4C, 0x31, 0, 0, 0, 0, 0, 0, 1, 0, 0, 0, 0, 0, 0, 0];
    block.extend([0; 48]);
    assert_eq!(store.pool, block);
    assert_eq!(store.records, [0x52, 0x31, 2, 0, 1, 0, 0, 0, 0, 0, 0, 0]);
}

#[test]
fn length_0_48_49() {
    assert_eq!([0, 48, 49].map(blocks), [1, 1, 3]);
}

#[test]
fn length_576_577() {
    assert_eq!([576, 577].map(blocks), [13, 16]);
}

#[test]
fn length_6912_6913() {
    assert_eq!([6912, 6913].map(blocks), [157, 161]);
}

#[test]
fn length_44976_44977() {
    assert_eq!([44_976, 44_977].map(blocks), [1024, 1025]);
}

/// About the heights 4 and 5, and the most that 65,536 slots have room for.
#[test]
fn lengths_of_large_blobs() {
    assert_eq!([1_728, 1_729].map(block_total), [1_885, 1_890]);
    assert_eq!([20_736, 20_737].map(block_total), [22_621, 22_627]);
    assert_eq!([2_883_456, 2_883_457].map(blocks), [65_535, 65_537]);
}

#[test]
fn the_totals_are_the_live_slots_of_real_blobs() {
    for length in [0, 48, 49, 576, 577, 6912, 6913, 44_976] {
        let store = Store::with_blob(1024, length);
        assert_eq!(store.audit(), Ok(blocks(length)), "length {length}");
        assert_eq!(store.length(0), Ok(length));
    }
}

#[test]
fn wiped_four_slots_create_49_48_create() {
    let mut store = Store::wiped(4);
    assert_eq!(store.create(), Ok(0));
    assert_eq!((store.state(0), store.version(0)), (ROOT, 1));

    store.resize(0, 49).unwrap();
    assert_eq!((store.version(0), store.height(0)), (2, 1));
    assert_eq!(store.children(0), [1, 2]);
    assert_eq!([1, 2].map(|slot| store.state(slot)), [PART, PART]);
    assert_eq!([1, 2].map(|slot| store.version(slot)), [1, 1]);
    assert_eq!([1, 2].map(|slot| store.count(slot)), [48, 1]);

    store.resize(0, 48).unwrap();
    assert_eq!((store.version(0), store.height(0), store.count(0)), (3, 0, 48));
    assert_eq!([1, 2].map(|slot| store.state(slot)), [FREE, FREE]);
    assert_eq!([1, 2].map(|slot| store.version(slot)), [1, 1]);

    assert_eq!(store.create(), Ok(1));
    assert_eq!((store.state(1), store.version(1)), (ROOT, 2));
    assert_eq!(store.audit(), Ok(2));
}

#[test]
fn two_slots_one_empty_blob_resize_to_49() {
    let mut store = Store::with_blob(2, 0);
    assert_eq!(store.resize(0, 49), Err(plain_no(11)));
}

#[test]
fn full_pool_one_empty_blob_resize_to_44977() {
    let mut store = Store::with_blob(1024, 0);
    assert_eq!(store.resize(0, 44_977), Err(plain_no(11)));
    assert_eq!(store.resize(0, 44_976), Ok(()));
    assert_eq!(store.audit(), Ok(1024));
    assert_eq!(store.create(), Err(plain_no(11)));
}

#[test]
fn offset_2_to_64_minus_1_and_size_2() {
    let mut store = Store::with_blob(4, 100);
    assert_eq!(store.read(0, u64::MAX, 2), Err(plain_no(10)));
    assert_eq!(store.write(0, u64::MAX, &[0, 0]), Err(plain_no(10)));
}

/// A pool of this many bytes, and records of as many slots.
fn zeros(bytes: usize) -> Store {
    Store { pool: vec![0; bytes], records: vec![0; bytes / 64 * 12] }
}

/// "For refusal 1 a pool of 65,600 bytes is now good and 4,194,368 is the first
/// too long." (W-203)
#[test]
fn pool_of_0_bytes_and_of_4194368_bytes() {
    for bytes in [0, 4_194_368] {
        let mut store = zeros(bytes);
        assert_eq!(store.wipe(), Err(plain_no(1)));
        assert_eq!(store.create(), Err(plain_no(1)));
        assert_eq!(store.audit(), Err(plain_no(1)));
    }
}

/// 65,600 bytes were refused before W-203.
#[test]
fn pool_of_65600_bytes_and_of_4194304_bytes() {
    for bytes in [65_600, 4_194_304] {
        let mut store = zeros(bytes);
        assert_eq!(store.wipe(), Ok(()));
        assert_eq!(store.create(), Ok(0));
        assert_eq!(store.audit(), Ok(1));
    }
}

#[test]
fn an_older_copy_in_its_own_slot() {
    let mut store = Store::with_blob(4, 49);
    let older = store.block(2).to_vec();
    store.write(0, 48, &[9]).unwrap();
    store.block_mut(2).copy_from_slice(&older);
    assert_eq!(store.read(0, 0, 1), Err(no(6, 2)));
    assert_eq!(store.audit(), Err(no(6, 2)));
}

#[test]
fn a_valid_block_in_another_slot() {
    let mut store = Store::with_blob(4, 96);
    let first = store.block(1).to_vec();
    store.block_mut(2).copy_from_slice(&first);
    assert_eq!(store.length(0), Err(no(5, 2)));
}

#[test]
fn an_old_block_in_a_free_slot_audit() {
    let mut store = Store::with_blob(4, 49);
    let old = store.block(2).to_vec();
    store.resize(0, 48).unwrap();
    store.block_mut(2).copy_from_slice(&old);
    assert_eq!(store.audit(), Err(no(9, 2)));
}
